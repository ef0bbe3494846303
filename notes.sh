#!/usr/bin/env bash
# The desk: what is done with files of notes, by host/notes and the port's static library. What it runs is built where it is not there or a source is
# newer; only `compare` needs the original.
set -u
# Closed ones are told first: what is opened later would take their places.
[ -e /dev/fd/2 ] || exec 2>/dev/null
[ -e /dev/fd/1 ] || { echo 'notes.sh: standard output is closed' >&2 && exit 2; }
closed=
[ -e /dev/fd/0 ] || { closed=yes && exec </dev/null; }
. "$(dirname "$(readlink -f "${BASH_SOURCE[0]}")")/host/tools.sh" || exit 2
top=${here%/*}
called=notes.sh
pages=$here/notes/help

# Whether the program can be run, and no source of it is newer.
is_built() {
    local sources=("$top/crates.txt" "$top/crates" "$here/notes" "$here/sides" "$here/tools.sh")
    [ "$verb" != compare ] || sources+=("$here/original" "$here/oracle" "$src")
    [ -x "$program" ] &&
        [ -z "$(find "${sources[@]}" -name out -prune -o \( -name '*.rt' -o -name '*.antt' -o -name crates.txt -o -name '*.rs' -o -name tools.sh \) -newer "$program" -print -quit)" ]
}

# Builds the program; the old one stands there until the new one is whole. Only one script at a time builds.
build() {
    if [ "$verb" = compare ]; then
        "$here/link.sh" && touch "$program"
        return
    fi
    building "$out"
    ! is_built || return 0
    command -v rt >/dev/null || give_up_without "$(no_rt)"
    find_x86 || give_up_without "$(no_x86)"
    tells=yes library "$out/staticlib.log"
    mkdir -p "$out/new" || give_up "cannot write to $out"
    compile "$out/new" "${x86[@]}" --crate-type rlib --crate-name sides -L "$top/target/staticlib" "${cfgs[@]}" "$here/sides/lib.rs"
    compile "$out/new" "${x86[@]}" --crate-name notes --extern sides -L "$top/target/staticlib" "${cfgs[@]}" "$here/notes/main.rs"
    mv "$out/new/notes" "$program" || give_up "cannot write $program"
}

# Whether there is a page on a verb.
is_verb() {
    [[ $1 =~ ^[a-z]+$ ]] && [ "$1" != notes ] && [ -f "$pages/$1.txt" ]
}

# Ends with the verbs that there are.
no_verb() {
    local page verbs=()
    for page in "$pages"/*.txt; do
        page=${page##*/}
        ! is_verb "${page%.txt}" || verbs+=("${page%.txt}")
    done
    give_up "there is no ${1@Q}; it does ${verbs[*]}" "'bash notes.sh --help' says how it is used"
}

verb=${1-}
for word in "$@"; do
    [ "$word" != -- ] || break
    [ "$word" = --help ] || [ "$word" = -h ] || continue
    is_verb "$verb" || [ "$verb" = "$word" ] || break
    [ "$verb" != "$word" ] || verb=notes
    cat "$pages/$verb.txt" || give_up 'standard output cannot be written'
    exit 0
done
[ $# != 0 ] || { cat "$pages/notes.txt" >&2 && exit 2; }
is_verb "$verb" || no_verb "$verb"
program=$out/notes/notes
if [ "$verb" = compare ]; then
    program=$out/x86/compare
    find_src || give_up "this is missing: $(no_src)"
fi
out=$out/notes
if ! is_built; then
    echo 'notes.sh: what it needs is proved and built first; this takes some minutes' >&2
    (build) </dev/null >&2 || give_up 'it could not be built, for the reason above; nothing was done'
fi
CLOSED=$closed "$program" "$@"
status=$?
[ "$status" -le 2 ] || give_up "the program ended with status $status before its end"
exit "$status"
