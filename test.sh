#!/usr/bin/env bash
# The gate: every crate proved, every program run, every must-fail edit refused, the checks without Rust, and the Rust host's checks.
# Its last line is 'N passed, M failed', and it fails where M is not 0.
set -u
cd "$(dirname "${BASH_SOURCE[0]}")" || exit 2

usage() {
    cat <<'TEXT'
usage: bash test.sh [--without-rust]
       bash test.sh --help

Everything that must hold here:
  rt ci            every crate proved, every must-fail edit refused, every program run; an edit that cannot be tried is a failure
  checks/run.sh    the checks that need no Rust
  host/check.sh    the Rust part: the port compared with the original Rust

--without-rust   leaves the Rust part out on purpose, and says so in the line before the last
--help           prints this

It needs rt (the kit's command) and python3. The Rust part also needs the original's sources (the folder vaporetto/src of a
checkout, named by VAPORETTO_SRC unless it is ../shared/docs/src/vaporetto/src) and a compiler (host/README.md). Where one of them
is missing that part is not run, which is a failure, and the line before the last says what is missing.

From nothing it takes half an hour or so on four processors. Where rt ci has passed the same crates on this machine before, it proves
only what changed: with no change it takes five to ten minutes, two or three of them for the Rust part.

What the Rust part lacks of Debian's packages (a compiler; python3) is installed by apt-get where this runs as root. Nothing is
installed where it is there already, with --without-rust, without the original's sources, or with IGHDELMUR_INSTALL=no in the
environment. The kit is for x86-64 alone.

The last line is 'N passed, M failed'. Status 0: M is 0; 1: it is not; 2: the words were not understood.
TEXT
}

rust=yes
for word in "$@"; do
    case $word in
    --without-rust) rust=no ;;
    --help)
        usage || exit 2
        exit 0
        ;;
    *)
        echo "test.sh: there is no '$word'; 'bash test.sh --help' says what there is" >&2
        exit 2
        ;;
    esac
done

passed=0 failed=0 note=
work=$(mktemp -d) || exit 2
trap 'rm -rf "$work"' EXIT

# One failure of the gate itself.
fault() {
    echo "test.sh: $1"
    failed=$((failed + 1))
}

# The last lines and the verdict.
finish() {
    [ $((passed + failed)) != 0 ] || fault 'nothing was checked'
    [ -z "$note" ] || echo "test.sh: $note"
    echo "$passed passed, $failed failed"
    [ "$failed" = 0 ]
    exit
}

# Runs a part of the gate and adds its last line, behind which words in brackets may stand, to the count.
part() {
    local status
    "$@" </dev/null | tee "$work/log"
    status=${PIPESTATUS[0]}
    if ! [[ $(tail -n 1 "$work/log") =~ ^([0-9]+)\ passed,\ ([0-9]+)\ failed(\ \(.*\))?$ ]]; then
        fault "the last line of $* is not 'N passed, M failed' (status $status)"
        return
    fi
    passed=$((passed + 10#${BASH_REMATCH[1]}))
    failed=$((failed + 10#${BASH_REMATCH[2]}))
    [ "$status" = 0 ] || [ $((10#${BASH_REMATCH[2]})) != 0 ] || fault "$* counts no failure and ends with status $status"
}

# Looks at the line in which 'rt ci' sums up what passed: must-fail edits that it could not apply or read try nothing, and it fails for none of them.
tried() {
    local line
    line=$(grep '^rt: ok' "$work/log")
    if [[ $line =~ ,\ 0*[1-9][0-9]*\ bad ]]; then
        fault "of the must-fail edits${BASH_REMATCH[0]}: rt ci could not try them; its words on each are above"
    elif [ -z "$line" ] && [ "$failed" = 0 ]; then
        fault "rt ci has no line that begins with 'rt: ok'"
    fi
}

listed=$(sed 's/^[[:blank:]]*//; s/[[:blank:]:#].*//' crates.txt)
shopt -s nullglob
for folder in crates/*/; do
    name=$(basename "$folder")
    grep -Fxq -- "$name" <<<"$listed" || fault "crates/$name is not listed in crates.txt"
done
command -v rt >/dev/null || fault "rt, the kit's command, is missing: put it on PATH"
. host/tools.sh || fault 'host/tools.sh is missing'
if [ "$failed" != 0 ]; then
    note='nothing else was run'
    finish
fi

kit=$(sed -n 's/.*Proved with: `\([^`]*\)`.*/\1/p' README.md | head -n 1)
this=$(rt version </dev/null)
[ "$kit" = "$this" ] || echo "test.sh: README.md names the kit '$kit', and this is '$this'"

[ "$rust" = yes ] && find_src || export IGHDELMUR_INSTALL=no
# What the Rust part lacks is found out, and installed where it may be, while the proofs run.
[ "$rust" = no ] || lacking >"$work/lacking" </dev/null &
tools=$!
part rt ci
tried
wait "$tools" || fault 'host/tools.sh failed'
part bash checks/run.sh
if [ "$rust" = no ]; then
    note='the Rust part was left out on purpose (--without-rust): the port was not compared with the original'
elif [ -s "$work/lacking" ]; then
    failed=$((failed + 1))
    note="the Rust part was NOT run, which counts as a failure. Missing: $(awk '{ printf "%s%s", between, $0; between = "; " }' "$work/lacking"). 'bash test.sh --without-rust' leaves that part out on purpose"
else
    part bash host/check.sh
fi
finish
