#!/usr/bin/env bash
# Tries the must-fail edits that the gate leaves out for its time, each crate's must-fail-further, on a copy of the repository.
# Its last line says how many there are and how many were refused; it fails where one was not, or where there is none.
set -eu -o pipefail
case ${1:-} in
'') ;;
-h | --help)
    echo 'usage: bash further.sh'
    echo 'Tries every edit of crates/*/must-fail-further on a copy of the repository; the prover must refuse each.'
    echo 'It takes no argument. As many are tried at a time as processors and memory allow.'
    echo 'Status: 0 all were refused; 1 one was not, or is no edit of its crate, or there is none; 2 bad usage.'
    exit 0
    ;;
*)
    echo "further.sh: it takes no argument but --help: $1" >&2
    exit 2
    ;;
esac
cd "$(dirname "${BASH_SOURCE[0]}")"
copy=$(mktemp -d)
trap 'rm -rf "$copy"' EXIT
cp crates.txt "$copy/"
# What checks kept of the crates is found in the folders that it stands in, so it is not copied.
find crates -name out -prune -o -type f -print0 | xargs -0 cp --parents -t "$copy"
for crate in "$copy"/crates/*/; do
    rm -rf "$crate/must-fail"
    [ ! -d "$crate/must-fail-further" ] || mv "$crate/must-fail-further" "$crate/must-fail"
done
cd "$copy"
edits=$(find crates -path '*/must-fail/*.edit' | wc -l)
status=0
rt must-fail </dev/null | tee log || status=1
refused=$(grep -c '^rt: must-fail .*: refused, as it must be' log) || status=1
echo "further.sh: $edits edits, $refused refused"
[ "$status" = 0 ] && [ "$refused" = "$edits" ]
