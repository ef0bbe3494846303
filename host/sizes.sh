#!/usr/bin/env bash
# Links plug-ins that have some of the port's calls and nothing that these do not reach, and prints how many bytes each takes.
set -eu
. "$(dirname "${BASH_SOURCE[0]}")/tools.sh"
usage='usage: host/sizes.sh [ARCHIVES]
Links shared libraries out of the static library of crates/exports_c, each with some of its calls, and leaves out what these calls do not reach. Prints a
table in Markdown: the bytes of their code, of their constants and of their data that is written.
ARCHIVES: a folder with another libexports.a, which is measured instead; a call that it lacks has no row.
Status 0: the table is printed; 2: they could not be linked.'
archives=
[[ ${1:--} = -* ]] || { archives=$1 && shift; }
no_words "$usage" "$@"
[ -n "$archives" ] || command -v rt >/dev/null || give_up_without "$(no_rt)"
find_x86 || give_up_without "$(no_x86)"
out=$out/sizes
building "$out"
if [ -z "$archives" ]; then
    library "$out/staticlib.log"
    archives=${here%/*}/target/staticlib
fi
[ -f "$archives/libexports.a" ] || give_up "there is no libexports.a in $archives"
mapfile -t all < <(readelf -sW "$archives/libexports.a" | awk '$5 == "GLOBAL" && $8 ~ /^ighdelmur_/ { print $8 }' | sort)
[ ${#all[@]} != 0 ] || give_up "$archives/libexports.a has no calls"

# The bytes of a file's sections whose names begin so: bytes FILE NAME
bytes() {
    local size sum=0
    for size in $(readelf -SW "$1" | sed 's/^ *\[ *[0-9]*\] //' | awk -v name="$2" 'index($1, name) == 1 { print $5 }'); do
        sum=$((sum + 16#$size))
    done
    sed ':more; s/\([0-9]\)\([0-9]\{3\}\)\($\|,\)/\1,\2\3/; t more' <<<"$sum"
}

# A row of the table, or none where the library lacks one of the calls: row NAME CALL..
row() {
    local call words=() file=$out/plugin.so
    for call in "${@:2}"; do
        [[ " ${all[*]} " = *" $call "* ]] || return 0
        words+=("-Wl,-u,$call")
    done
    { echo '{ global:' && printf '%s;\n' "${@:2}" && echo 'local: *; };'; } >"$out/exported"
    "${cc[@]}" -shared -nostdlib -Wl,--gc-sections "-Wl,--version-script=$out/exported" "${words[@]}" -o "$file" "$archives/libexports.a" ||
        give_up "$1: the linker failed: its words are above"
    [ "$(readelf --dyn-syms -W "$file" | grep -c ' ighdelmur_')" = $(($# - 1)) ] || give_up "$1: the library has other calls than it should"
    echo "| $1 | $(bytes "$file" .text) | $(bytes "$file" .rodata) | $(bytes "$file" .data) and $(bytes "$file" .bss) |"
}

echo '| calls | code | constants | data, as given and zero |'
echo '|---|---|---|---|'
row 'the type of a number' ighdelmur_get_type
row 'read' ighdelmur_read
row 'read, the type of a number' ighdelmur_read ighdelmur_get_type
row 'convert' ighdelmur_convert
row 'read, write' ighdelmur_read ighdelmur_write
row 'all but the type of a number' $(printf '%s\n' "${all[@]}" | grep -v get_type)
row 'all' "${all[@]}"
