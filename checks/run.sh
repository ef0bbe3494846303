#!/usr/bin/env bash
# The checks that need no Rust: each script of this folder in turn, a line for each, and 'N passed, M failed' as the last.
# A script ends with status 0 where all is well, and says what is wrong where it is not.
set -u
cd "$(dirname "${BASH_SOURCE[0]}")/.." || exit 2
. host/tools.sh
passed=0 failed=0
log=$(mktemp) || exit 2
trap 'rm -f "$log"' EXIT

# Runs a script by its name; what it printed is shown where it fails.
check() {
    if "$@" >"$log" 2>&1 </dev/null; then
        passed=$((passed + 1))
        echo "checks: ok: ${!#}: $(tail -n 1 "$log")"
    else
        failed=$((failed + 1))
        echo "checks: FAILED: ${!#}"
        tail -n 40 "$log" | sed 's/^/    /'
    fi
}

command -v python3 >/dev/null || { packages update && packages install python3; }
for script in checks/*.py checks/*.sh; do
    case $script in
    checks/run.sh | 'checks/*.py') ;;
    *.py) check python3 "$script" ;;
    *.sh) check bash "$script" ;;
    esac
done
echo "$passed passed, $failed failed"
[ "$failed" = 0 ]
