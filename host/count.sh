#!/usr/bin/env bash
# Counts how many instructions the port's calls execute on the lines of host/samples/counted.txt, and prints a table.
set -eu
. "$(dirname "${BASH_SOURCE[0]}")/tools.sh"
usage='usage: host/count.sh [ARCHIVES]
Builds host/count.c with the static library of crates/exports_c, and prints a table in Markdown: how many instructions each call executes on the ten
lines of each kind in host/samples/counted.txt, one call for each line.
ARCHIVES: a folder with another libexports.a, which is counted instead, and with the libconvert.a that earlier states have beside it; a call that they
lack has no row.
Valgrind counts.
Status 0: the table is printed; 2: it could not be counted.'
archives=
[[ ${1:--} = -* ]] || { archives=$1 && shift; }
no_words "$usage" "$@"
! is_x86 || command -v valgrind >/dev/null || { packages update && packages install valgrind; } || give_up_without "$(no_valgrind)"
[ -n "$archives" ] || command -v rt >/dev/null || give_up_without "$(no_rt)"
find_x86 || give_up_without "$(no_x86)"
out=$out/count
building "$out"
if [ -z "$archives" ]; then
    library "$out/staticlib.log"
    linked=("${here%/*}/target/staticlib/libexports.a")
else
    linked=()
    for name in exports convert; do
        [ ! -f "$archives/lib$name.a" ] || linked+=("$archives/lib$name.a")
    done
    [ ${#linked[@]} != 0 ] || give_up "there is no libexports.a or libconvert.a in $archives"
fi

# All addresses are found before the first call, so that no call has the search for one in it.
"${cc[@]}" -std=c11 -Wall -Wextra -Werror -O -fno-inline -o "$out/counted" "$here/count.c" -Wl,-z,now -Wl,--whole-archive "${linked[@]}" -Wl,--no-whole-archive ||
    give_up 'the compiler of C failed: its words are above'

# Prints how many instructions a function executes while the program runs: count_in FUNCTION WORDS.. What the program prints goes to $out/again.
count_in() {
    valgrind --tool=callgrind --toggle-collect="$1" --callgrind-out-file="$out/callgrind.out" --log-file="$out/said" "$out/counted" "${@:2}" >"$out/again" &&
        sed -n 's/^summary: //p' "$out/callgrind.out"
}

# A row of the table, or none where the libraries lack the call: row NAME CALL FUNCTION [just], CALL as count.c has it; `just`: with just the room.
row() {
    local cells="" kind status rooms counted
    for kind in 'notes P' 'plain P' 'notes T' 'plain T'; do
        sed -n "s/^$kind\t//p" "$here/samples/counted.txt" >"$out/lines"
        status=0
        "$out/counted" "$2" "${kind: -1}" <"$out/lines" >"$out/answers" || status=$?
        [ "$status" != 3 ] || return 0
        [ "$status" = 0 ] || give_up "$1, $kind: the program failed with status $status"
        rooms=()
        [ $# = 3 ] || mapfile -t rooms <"$out/answers"
        counted=$(count_in "$3" "$2" "${kind: -1}" "${rooms[@]}" <"$out/lines") || { cat "$out/said" >&2 && give_up "$1, $kind: counting failed: its words are above"; }
        cmp "$out/answers" "$out/again" >&2 && [[ $counted =~ ^[1-9][0-9]*$ ]] || give_up "$1, $kind: nothing was counted, or another run"
        cells+=" $(sed ':more; s/\([0-9]\)\([0-9]\{3\}\)\($\|,\)/\1,\2\3/; t more' <<<"$counted") |"
    done
    echo "| $1 |$cells"
}

echo '| call | notes P | plain P | notes T | plain T |'
echo '|---|---|---|---|---|'
row 'the type of each character, a call for each' types ighdelmur_get_type
row 'read' read ighdelmur_read
row 'write partial, ample room' partial ighdelmur_write
row 'write partial, just the room' partial ighdelmur_write just
row 'write tokenized, ample room' tokenized ighdelmur_write
row 'write tokenized, just the room' tokenized ighdelmur_write just
row 'withhold the middle third, ample room' third ighdelmur_withhold
row 'withhold the middle third, just the room' third ighdelmur_withhold just
row 'withhold nothing (0..0), ample room' nothing ighdelmur_withhold
row 'withhold nothing (0..0), just the room' nothing ighdelmur_withhold just
row 'key, ample room' key ighdelmur_key
row 'key, just the room' key ighdelmur_key just
row 'convert to the same form, ample room' convert ighdelmur_convert
