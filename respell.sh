#!/usr/bin/env bash
# Proves and builds the program `respell` where it is not there or a source is newer, and runs it on a file, or on standard input where none is named.
# The program has no exit status: it tells what failed on standard error, and that makes the status here.
set -u
# Closed ones are told first: what is opened later would take their places.
[ -e /dev/fd/2 ] || exec 2>/dev/null
[ -e /dev/fd/1 ] || { echo 'respell.sh: standard output is closed' >&2 && exit 1; }
[ -e /dev/fd/0 ] || { echo 'respell.sh: standard input is closed' >&2 && exit 1; }
here=$(cd "$(dirname "${BASH_SOURCE[0]}")" && pwd) || exit 2
program=$here/crates/respell/out/respell

usage() {
    cat <<'USAGE'
usage: bash respell.sh [FILE]

Reads notes in one form and writes them in another, a line for each line of FILE, or of standard input where no FILE is named.
A line is two letters and a note: the form to read (R raw, T tokenized, P partial), the form to write (T, P), then the note.
It prints = and the written note, or ! with the number and the place of what refuses it. README.md has the numbers.

    printf 'TPa/x b\nPTa-b|c\n' | bash respell.sh

prints =a/x|b/ and =ab c. A file whose name begins with - is given as ./-name.

At the first call it proves and builds the program by the kit's command rt, which takes some minutes, and says so.

status: 0  every line has its answer (a refusal is an answer)
        1  reading or writing failed, which is said on standard error; a line whose end was not read has no answer
        2  bad usage, a FILE that cannot be read, or a program that could not be built
USAGE
}

# Of what rt prints while it proves and builds, a line for each crate as it is proved: a script of sed.
each_proved='/^crate /{s/^crate \([^:]*\):.*/rt: \1 proved/;h}; /^logic=proved/{g;/./p}'

# Says what is wrong, and ends with status 2.
stop() {
    echo "respell.sh: $1" >&2
    exit 2
}

# Tells each crate as it is proved, and everything where one is not. A run on no input has the program built, and does nothing more.
build() {
    local log=$here/target/respell.log
    command -v rt >/dev/null || stop "the program is not built, and the kit's command rt, which builds it, is not on the PATH"
    mkdir -p "${log%/*}" || stop "no folder for what is built: ${log%/*}"
    echo 'respell.sh: the program is proved and built first; this takes some minutes' >&2
    (set -o pipefail && cd "$here/crates/respell" && rt run </dev/null 2>&1 | tee "$log" | sed -un "$each_proved" >&2) || { cat "$log" >&2 && stop 'the program could not be built'; }
    touch "$program"
}

case ${1-} in
-h | --help)
    usage
    exit
    ;;
-*) stop "unknown word '$1'; --help says how it is used" ;;
esac
[ $# -le 1 ] || stop "one file at most: '$2' is one too many; --help says how it is used"
if [ $# = 1 ]; then
    [ ! -d "$1" ] || stop "'$1' is a folder"
    { exec <"$1"; } 2>/dev/null || stop "'$1' cannot be read"
fi
[ "$(uname -m)" = x86_64 ] || stop "the kit and the program are for x86-64 alone, and this is $(uname -m)"
[ -x "$program" ] && [ -z "$(find "$here/crates.txt" "$here/crates" -name out -prune -o \( -name '*.rt' -o -name '*.antt' -o -name crates.txt \) -newer "$program" -print -quit)" ] || build
# Whether a pipe or a terminal does not wait: opened once more, it does.
is_hasty() {
    local flags
    [ -p "/dev/fd/$1" ] || [ -t "$1" ] || return 1
    flags=$(sed -n 's/^flags:[[:blank:]]*//p' "/proc/$$/fdinfo/$1") && [ -n "$flags" ] && [ $((8#$flags & 8#4000)) != 0 ]
} 2>/dev/null
! is_hasty 0 || { exec </proc/self/fd/0; } 2>/dev/null
! is_hasty 1 || { exec >/proc/self/fd/1; } 2>/dev/null
# A reader that stops early is told as a failed write.
trap '' PIPE
exec 3>&1
said=$("$program" 2>&1 >&3 3>&-)
status=$?
if [ -n "$said" ] || [ "$status" != 0 ]; then
    [ -z "$said" ] || printf '%s\n' "$said" >&2
    [ "$status" = 0 ] || echo "respell.sh: the program ended with status $status before its end" >&2
    exit 1
fi
