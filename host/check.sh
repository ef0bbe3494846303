#!/usr/bin/env bash
# The host's checks: a line for each, and 'N passed, M failed' as the last.
set -u
. "$(dirname "${BASH_SOURCE[0]}")/tools.sh"
no_words "usage: host/check.sh
The Rust part of the gate: the original against what is recorded of it, and against the port. It takes about two minutes.
The last line is 'N passed, M failed'. Status 0: M is 0; 1: it is not, or something that is needed is missing." "$@"
passed=0 failed=0
log=$(mktemp) || exit 2
trap 'rm -f "$log"' EXIT

# Runs a check by its name; what it printed is shown where it fails.
check() {
    local name=$1
    shift
    if "$@" >"$log" 2>&1 </dev/null; then
        passed=$((passed + 1))
        echo "host: ok: $name"
    else
        failed=$((failed + 1))
        echo "host: FAILED: $name"
        tail -n 40 "$log" | sed 's/^/    /'
        return 1
    fi
}

# The same, with what it printed shown also where it passes.
shown() {
    check "$@" && sed 's/^/    /' "$log"
}

# The examples in the original's own comments, run on the build with the stand-ins.
examples() {
    VAPORETTO_SRC=$src EXTRACT=$out "$rustdoc" --edition 2021 --test --crate-name vaporetto \
        --extern vaporetto="$out/libvaporetto.rlib" "$here/original/lib.rs" &&
        grep -q '^test result: ok\. [1-9]' "$log"
}

# The last line and the verdict.
finish() {
    echo "$passed passed, $failed failed"
    [ "$failed" = 0 ]
    exit
}

lacking >"$log"
if [ -s "$log" ]; then
    failed=$(wc -l <"$log")
    sed 's/^/host: FAILED: nothing was run, for this is missing: /' "$log"
    finish
fi
if check 'the original, unchanged, compiles beside the stand-ins' "$here/build.sh"; then
    check "the original's own examples" examples
    check "the oracle's tests" "$out/oracle_tests"
    check 'the recorded lists, made again, show no difference' "$here/record.sh" --check
    shown 'respell accepts and writes as the oracle on generated lines' python3 "$here/respelled.py" "$out/oracle" bash "$here/../respell.sh"
fi
if check 'the port and the original link into one program' "$here/link.sh"; then
    shown 'the port answers as the original on generated lines' "$out/x86/both" check
    shown 'joined lines read as their sentences joined, on both sides' "$out/x86/both" joins
    shown 'the look-up, the reader and the check know the type of every number as the original does' "$out/x86/both" types
    shown 'check, joins and types notice and name each part of a wrong port' "$here/check-test.sh"
    shown 'notes.sh does what its pages say, answers as a second reading, reports a wrong port, and says what it cannot do' python3 "$here/notes.py"
    shown "README.md's examples of notes.sh" python3 "$here/../checks/readme.py" notes
fi
shown 'notes.sh join joins as a second reading does, and says what it cannot join' python3 "$here/join.py"
shown 'the withheld copies and the keys are those of a second reading' "$here/withhold.sh"
shown 'respell makes interrupted calls again, and goes on after short ones' "$here/interrupted.sh"
check 'the examples in C and in Rust link the port and print what they should' "$here/example.sh"
check 'the loaders in C and in Rust walk the cells of notes and print what they should' "$here/loader.sh"
finish
