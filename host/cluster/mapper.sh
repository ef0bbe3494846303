#!/usr/bin/env bash
# For a cluster's engine: the keys of the notes of files whose names stand on standard input, one to a line. FORM is that of the notes.
# That a note is refused, which is said on standard error, is no failure of the task; a file that cannot be read is.
set -u
notes=$(dirname "${BASH_SOURCE[0]}")/../../notes.sh
[ $# = 1 ] || { echo 'usage: mapper.sh FORM <NAMES' >&2 && exit 2; }
while IFS= read -r file; do
    bash "$notes" keys "$1" -- "$file" </dev/null || [ $? = 1 ] || exit 2
done
