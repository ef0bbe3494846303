#!/usr/bin/env bash
# Builds host/loader.c and host/loader.rs with the static library of crates/exports_c, and holds the tables of tags that they print to what is expected.
set -eu
. "$(dirname "${BASH_SOURCE[0]}")/tools.sh"
no_words 'usage: host/loader.sh
Builds host/loader.c and host/loader.rs, which read notes and walk their tags by a constant stride, with the static library of crates/exports_c, runs
both and shows what they print.
Status 0: it is what is expected; 1: it is not; 2: they could not be built.' "$@"
command -v rt >/dev/null || give_up_without "$(no_rt)"
find_x86 || give_up_without "$(no_x86)"
out=$out/loader
building "$out"
library "$out/staticlib.log"
archives=${here%/*}/target/staticlib

"${cc[@]}" -std=c11 -Wall -Wextra -Werror -O -o "$out/in_c" "$here/loader.c" "$archives/libexports.a" || give_up 'the compiler of C failed: its words are above'
"${x86[@]}" --edition 2021 -O -L "$archives" -o "$out/in_rust" "$here/loader.rs" || give_up 'the compiler of Rust failed: its words are above'

# prints EXPECTED NOTE..: both programs print this on these notes.
prints() {
    local expected=$1 program status
    shift
    printf '%s\n' "$expected" >"$out/expected"
    for program in in_c in_rust; do
        status=0
        "$out/$program" "$@" >"$out/printed" || status=$?
        head -n 5 "$out/printed" | cut -c1-60
        if [ "$status" != 0 ] || ! cmp "$out/expected" "$out/printed"; then
            echo "host/loader.sh: $out/$program ends with status $status and prints $out/printed; expected are the lines of $out/expected" >&2
            exit 1
        fi
    done
}

prints $'a\t0+0 -\t0+1 x\nb\t1+1 y\t2+0 -'
prints $'猫\t0+6 名詞\t6+6 ネコ\nが\t12+6 助詞\t18+0 -\nrefused: 6 at 2\na\nb' '猫/名詞/ネコ が/助詞' 'a  b' 'a b'
# 30 characters with 70 columns, more cells than the conversion holds, and a tag in the last of them.
row=$(printf '\t0+0 -%.0s' {1..70})
prints "$(printf "b$row\n%.0s" {1..29})"$'\n'"b${row%0+0 -}0+1 x" "$(printf 'b%.0s' {1..30})$(printf '/%.0s' {1..70})x"
