#!/usr/bin/env bash
# Builds target/host/x86/both where need be and runs it on the words given.
set -u
. "$(dirname "${BASH_SOURCE[0]}")/tools.sh"
case ${1-} in
check | joins | types | bench | notes | duplicates) ;;
--help)
    cat "$here/both/usage.txt" || exit 2
    exit 0
    ;;
*)
    [ $# = 0 ] || echo "host/both.sh: there is no '$1'" >&2
    cat "$here/both/usage.txt" >&2
    exit 2
    ;;
esac
"$here/link.sh" >&2 || give_up 'the program could not be built, for the reason above; nothing was compared'
find_x86 || give_up_without "$(no_x86)"
MACHINE="$(uname -m), $(nproc) processors" exec "$out/x86/both" "$@"
