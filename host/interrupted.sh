#!/usr/bin/env bash
# Runs the program respell with every second read and write interrupted, and the others short, and holds what it prints to what it should.
set -eu
. "$(dirname "${BASH_SOURCE[0]}")/tools.sh"
no_words 'usage: host/interrupted.sh
Runs the program respell, which bash respell.sh builds, with every second read and write interrupted and the others short.
Status 0: it prints what it should; 1: it does not; 2: it could not be run.' "$@"
command -v rt >/dev/null || give_up_without "$(no_rt)"
find_x86 || give_up_without "$(no_x86)"
out=$out/interrupted
building "$out"
crates=${here%/*}/crates/respell
bash "${here%/*}/respell.sh" </dev/null || give_up 'respell.sh cannot build or run the program: its words are above'
"${cc[@]}" -std=gnu11 -Wall -Wextra -Werror -O -shared -fPIC -o "$out/interrupted.so" "$here/interrupted.c" || give_up 'the compiler of C failed: its words are above'
status=0
LD_PRELOAD=$out/interrupted.so "$crates/out/respell" <"$crates/stdin" >"$out/printed" 2>"$out/said" || status=$?
if [ "$status" != 0 ] || [ -s "$out/said" ] || ! cmp "$crates/stdout" "$out/printed"; then
    cat "$out/said"
    echo "host/interrupted.sh: the program ends with status $status and prints $out/printed; expected are the lines of $crates/stdout" >&2
    exit 1
fi
echo "$(wc -l <"$out/printed") lines answered"
