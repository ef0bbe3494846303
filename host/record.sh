#!/usr/bin/env bash
# Makes the recorded lists again and writes them; with --check writes nothing and shows how they differ.
set -eu
. "$(dirname "${BASH_SOURCE[0]}")/tools.sh"
[ "$*" = --check ] || no_words 'usage: host/record.sh [--check]
Makes the recorded lists of host/recorded again and writes them; with --check it writes nothing and shows how they differ.
Status 0: written, or no difference; 1: they differ; 2: they could not be made.' "$@"
"$here/build.sh" || give_up 'the oracle could not be built, for the reason above'
made=$(mktemp -d)
trap 'rm -rf "$made"' EXIT
"$out/oracle" record "$made/recorded" || give_up 'the oracle could not write the lists, for the reason above'
if [ "$*" != --check ]; then
    cp "$made/recorded"/* "$here/recorded/" || give_up "the lists could not be copied to $here/recorded"
    exit
fi
status=0
diff -r "$here/recorded" "$made/recorded" >"$made/differences" || status=$?
[ "$status" != 0 ] || echo 'no difference'
cut -c1-200 "$made/differences" | sed 20q
[ "$status" = 0 ] || echo "host/record.sh: host/recorded is not what the original answers: $(wc -l <"$made/differences") lines of diff, the first above" >&2
exit "$status"
