#!/usr/bin/env bash
# Builds host/example.c and host/example.rs with the static library of crates/exports_c, and holds what they print to what is expected.
set -eu
. "$(dirname "${BASH_SOURCE[0]}")/tools.sh"
no_words 'usage: host/example.sh
Builds host/example.c and host/example.rs with the static library of crates/exports_c, runs both and shows what they print.
Status 0: it is what is expected; 1: it is not; 2: they could not be built.' "$@"
command -v rt >/dev/null || give_up_without "$(no_rt)"
find_x86 || give_up_without "$(no_x86)"
out=$out/example
building "$out"
library "$out/staticlib.log"
archives=${here%/*}/target/staticlib

"${cc[@]}" -std=c11 -Wall -Wextra -Werror -O -o "$out/in_c" "$here/example.c" "$archives/libexports.a" || give_up 'the compiler of C failed: its words are above'
"${x86[@]}" --edition 2021 -O -L "$archives" -o "$out/in_rust" "$here/example.rs" || give_up 'the compiler of Rust failed: its words are above'
printf '%s\n' 'a/x|b/' 'refused: 6 at 2' '猫/名詞|が/助詞' 'refused: 11 at 0' >"$out/expected"
# 45 characters with 46 columns: more cells than the conversion holds.
wide=$(printf 'b%.0s' {1..45})$(printf '/%.0s' {1..46})
for program in in_c in_rust; do
    status=0
    "$out/$program" 'a/x b' 'a  b' '猫/名詞 が/助詞' "$wide" >"$out/printed" || status=$?
    cat "$out/printed"
    if [ "$status" != 0 ] || ! cmp "$out/expected" "$out/printed"; then
        echo "host/example.sh: $out/$program ends with status $status and prints the above; expected are the lines of $out/expected" >&2
        exit 1
    fi
done
