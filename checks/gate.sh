#!/usr/bin/env bash
# Runs test.sh and the host's scripts in a folder of their own, on stand-ins for the programs and the parts that they call, and looks at how they end.
# It needs no Rust. Its last line says how many cases were tried; it fails at the first that ends otherwise.
set -u
top=$(cd "$(dirname "${BASH_SOURCE[0]}")/.." && pwd)
work=$(mktemp -d) || exit 2
trap 'rm -rf "$work"' EXIT
here=$work/here cases=0
mkdir -p "$work"/{bin,tools,away,tmp,home,debian/bin,sources} "$here"/{checks,crates/one,crates/exports_c}
cp -R "$top/test.sh" "$top/further.sh" "$top/notes.sh" "$top/.ci" "$top/host" "$here/"
mv "$here/host/check.sh" "$here/host/whole.sh"
printf 'one: # a crate\nexports_c staticlib: one\n' >"$here/crates.txt"
echo 'Proved with: `kit 1`.' >"$here/README.md"
echo '// no code' >"$work/sources/sentence.rs"
printf '        for (b, s) in sentence\n        sentence.set_predictor(self);\n' >"$work/sources/predictor.rs"

# The real programs that the scripts may call; every other is a stand-in, or missing.
for name in awk bash basename cat cp cut diff dirname env find flock grep head mkdir mktemp mv nproc readlink rm sed sha256sum sh sort tail tee timeout touch wc xargs; do
    ln -s "$(command -v "$name")" "$work/tools/$name" || exit 2
done

# stand_in FILE: a script, from standard input.
stand_in() {
    { echo '#!/bin/sh' && cat; } >"$1"
    chmod +x "$1"
}
stand_in "$here/host/check.sh" <<<'echo the host is run; printf "$HOST_SAYS"; exit "$HOST_EXIT"'
stand_in "$here/checks/run.sh" <<'CHECKS'
. host/tools.sh
command -v python3 >/dev/null || { packages update && packages install python3; }
printf "$CHECKS_SAYS"
exit "$CHECKS_EXIT"
CHECKS
stand_in "$work/bin/rt" <<'RT'
case $1 in
version) echo "$KIT" ;;
lib)
    echo 'rt: a word on the library'
    echo 'crate one: modules loaded=1 checked=2'
    echo 'logic=proved functions=3'
    mkdir -p out
    [ "$RT_EXIT" != 0 ] || echo '' >"out/lib${PWD##*/}.a"
    exit "$RT_EXIT"
    ;;
*)
    [ "$*" = ci ] || [ "$*" = must-fail ] || { echo "rt: it is called with other words: $*" && exit 3; }
    [ -f crates.txt ] && [ -d crates ] || { echo 'rt: it is called in another folder' && exit 3; }
    printf "$RT_SAYS"
    exit "$RT_EXIT"
    ;;
esac
RT
stand_in "$work/bin/apt-get" <<'APT'
echo "$*" >>"$CALLED"
case $APT_GIVES,$* in
,*) echo 'E: no network'; exit 100 ;;
rustc,*\ rustc-web*) cp "$AWAY/rustc" "$IGHDELMUR_USR/bin/rustc"; cp "$AWAY/rustc" "$IGHDELMUR_USR/bin/rustdoc" ;;
esac
APT
stand_in "$work/bin/rustc" <<<'if [ "$1" = --version ]; then echo "$RUSTC"; else echo "error: a word of the compiler"; exit 1; fi'
stand_in "$work/bin/id" <<<'echo "$USER_ID"'
stand_in "$work/bin/uname" <<<'echo "$MACHINE"'
for name in rustdoc cc; do stand_in "$work/bin/$name" <<<'exit 1'; done
stand_in "$work/bin/python3" <<<'echo "a word of python3"; exit 1'
stand_in "$work/bin/valgrind" <<<'exit 1'

# run VAR=VALUE.. COMMAND..: what a command says and its status, into `text` and `got`, with the stand-ins as the variables have it. `without` names
# programs that are missing; where `installs` is not `yes`, nothing may be installed.
run() {
    local name
    rm -f "$work/called"
    for name in ${without-}; do mv "$work/bin/$name" "$work/away/"; done
    got=0
    text=$(cd / && env -i PATH="$work/bin:$work/tools" HOME="$work/home" TMPDIR="$work/tmp" CALLED="$work/called" AWAY="$work/away" \
        IGHDELMUR_USR="$work/debian" VAPORETTO_SRC="$work/sources" KIT='kit 1' RUSTC='rustc 1.83.0 (x)' MACHINE=x86_64 USER_ID=0 APT_GIVES= \
        RT_SAYS='x\nrt: ok; must-fail edits: 2 refused\n3 passed, 0 failed\n' RT_EXIT=0 CHECKS_SAYS='z\n5 passed, 0 failed\n' CHECKS_EXIT=0 \
        HOST_SAYS='y\n2 passed, 0 failed\n' HOST_EXIT=0 "$@" </dev/null 2>&1) || got=$?
    for name in ${without-}; do mv "$work/away/$name" "$work/bin/"; done
    cases=$((cases + 1))
}

# Ends with a case that did not go as it should.
wrong() {
    printf 'checks/gate.sh: %s: %s. Status %s, and it says:\n%s\n' "$1" "$2" "$got" "$text"
    exit 1
}

# tidy NAME: nothing was installed that should not be, and no temporary file is left.
tidy() {
    case ${installs-no} in
    yes) [ -f "$work/called" ] || wrong "$1" 'nothing is installed' ;;
    *) [ ! -f "$work/called" ] || wrong "$1" "this is installed: $(cat "$work/called")" ;;
    esac
    [ -z "$(ls -A "$work/tmp")" ] || wrong "$1" 'a temporary file is left'
    rm -f "${work:?}/debian/bin"/*
}

# expect NAME STATUS LAST BEFORE SAID VAR=VALUE..: how test.sh ends on the word `word`: its last line, what the line before has, and what it says
# anywhere, when its parts behave so. The host is run, unless `host` is `no`.
expect() {
    local name=$1 status=$2 last=$3 before=$4 said=$5 lines
    shift 5
    run "$@" bash "${script:-$here/test.sh}" ${word:+"$word"}
    mapfile -t lines <<<"$text"
    [ "$got" = "$status" ] || wrong "$name" "the status is not $status"
    [ "${lines[-1]}" = "$last" ] || wrong "$name" "the last line is not '$last'"
    [[ ${lines[-2]} == *"$before"* ]] || wrong "$name" "the line before the last has no '$before'"
    [[ $text == *"$said"* ]] || wrong "$name" "it does not say '$said'"
    [[ ${host-yes} = no ]] || [[ $text == *'the host is run'* ]] || wrong "$name" 'the host is not run'
    [[ ${host-yes} != no ]] || [[ $text != *'the host is run'* ]] || wrong "$name" 'the host is run'
    tidy "$name"
}

# ends NAME STATUS SAID VAR=VALUE.. COMMAND..: how a command ends, and what it says.
ends() {
    local name=$1 status=$2 said=$3
    shift 3
    run "$@"
    [ "$got" = "$status" ] || wrong "$name" "the status is not $status"
    [[ $text == *"$said"* ]] || wrong "$name" "it does not say '$said'"
    tidy "$name"
}

# The parts added up.
expect 'all well' 0 '10 passed, 0 failed' '2 passed' x
script=$here/.ci/run expect 'what continuous integration runs' 0 '10 passed, 0 failed' '2 passed' x
expect 'another kit' 0 '10 passed, 0 failed' '' 'kit 2' KIT='kit 2'
expect 'a crate not proved' 1 '9 passed, 1 failed' '' x RT_SAYS='x\n2 passed, 1 failed\n' RT_EXIT=1
expect 'a failure with status 0' 1 '9 passed, 1 failed' '' x RT_SAYS='x\n2 passed, 1 failed\n'
expect 'rt stops short' 1 '7 passed, 1 failed' '' 'rt ci' RT_SAYS='x\n' RT_EXIT=2
expect 'rt says nothing' 1 '7 passed, 1 failed' '' 'rt ci' RT_SAYS=
expect 'rt fails against its count' 1 '10 passed, 1 failed' '' 'rt ci' RT_EXIT=1
expect 'words behind the last line of rt' 0 '10 passed, 0 failed' '2 passed' x RT_SAYS='x\nrt: ok; must-fail edits: 2 refused\n3 passed, 0 failed (some words)\n'
expect 'other words behind the last line of rt' 1 '7 passed, 1 failed' '' 'rt ci' RT_SAYS='x\nrt: ok; must-fail edits: 2 refused\n3 passed, 0 failed or so\n'
expect 'no edit' 0 '10 passed, 0 failed' '2 passed' x RT_SAYS='x\nrt: ok; all was done\n3 passed, 0 failed\n'
expect 'an edit that is no edit of its crate' 1 '10 passed, 1 failed' '2 passed' 'of the must-fail edits, 1 bad' RT_SAYS='rt: ok; must-fail edits: 2 refused, 1 bad; x\n3 passed, 0 failed\n'
expect 'ten such edits' 1 '10 passed, 1 failed' '2 passed' ', 10 bad' RT_SAYS='rt: ok; must-fail edits: 2 refused, 1 of them only by a limit, 10 bad; x\n3 passed, 0 failed\n'
expect 'no such edit, and a count of them' 0 '10 passed, 0 failed' '2 passed' x RT_SAYS='x\nrt: ok; must-fail edits: 2 refused, 0 bad; x\n3 passed, 0 failed\n'
expect 'rt sums up nothing' 1 '10 passed, 1 failed' '' "rt ci has no line that begins with 'rt: ok'" RT_SAYS='x\n3 passed, 0 failed\n'
expect 'a check fails' 1 '9 passed, 1 failed' '' z CHECKS_SAYS='z\n4 passed, 1 failed\n' CHECKS_EXIT=1
expect 'the checks stop short' 1 '5 passed, 1 failed' '' checks/run.sh CHECKS_SAYS='z\n' CHECKS_EXIT=2
expect 'the checks fail against their count' 1 '10 passed, 1 failed' '' checks/run.sh CHECKS_EXIT=1
expect 'the host stops short' 1 '8 passed, 1 failed' '' host/check.sh HOST_SAYS='2 passed, 0 failed\ny\n'
expect 'the host fails' 1 '9 passed, 1 failed' '' y HOST_SAYS='y\n1 passed, 1 failed\n' HOST_EXIT=1
expect 'nothing passed' 1 '0 passed, 1 failed' 'nothing was checked' '' RT_SAYS='rt: ok\n0 passed, 0 failed\n' CHECKS_SAYS='0 passed, 0 failed\n' HOST_SAYS='0 passed, 0 failed\n'

# What the Rust part lacks is a failure that says so, and only what is missing is installed.
host=no
hint="'bash test.sh --without-rust' leaves that part out on purpose"
expect 'the sources missing' 1 '8 passed, 1 failed' "$hint" "no sentence.rs and predictor.rs in $work/none: set VAPORETTO_SRC" VAPORETTO_SRC="$work/none"
without='rustc cc python3' expect 'the sources and all else missing' 1 '8 passed, 1 failed' 'python3' "$hint" VAPORETTO_SRC="$work/none"
without=rustc installs=yes expect 'the compiler missing' 1 '8 passed, 1 failed' "$hint" \
    'Missing: rustc 1.83 or later with rustdoc, and cc (install them; apt-get update failed: E: no network)'
installs=yes expect 'the compiler too old' 1 '8 passed, 1 failed' "$hint" 'rustc 1.83 or later' RUSTC='rustc 1.82.0 (x)'
without=rustdoc installs=yes expect 'rustdoc missing' 1 '8 passed, 1 failed' "$hint" 'rustc 1.83 or later'
without=cc installs=yes expect 'the linker missing' 1 '8 passed, 1 failed' "$hint" 'rustc 1.83 or later'
without=python3 installs=yes expect 'python3 missing' 1 '8 passed, 1 failed' "$hint" 'Missing: python3 (install it; '
without=rustc expect 'the compiler missing, and another user' 1 '8 passed, 1 failed' "$hint" 'only root' USER_ID=1000
without='rustc apt-get' expect 'the compiler missing, and no apt-get' 1 '8 passed, 1 failed' "$hint" 'there is no apt-get'
without='rustc python3' expect 'the compiler missing, and nothing to be installed' 1 '8 passed, 1 failed' "$hint" 'IGHDELMUR_INSTALL=no' IGHDELMUR_INSTALL=no
expect 'an Arm machine' 1 '8 passed, 1 failed' "$hint" 'the kit and the port'\''s static library are for x86-64 alone, and this is aarch64' MACHINE=aarch64
without='rustc cc' expect 'another machine without a compiler' 1 '8 passed, 1 failed' "$hint" 'this is riscv64' MACHINE=riscv64
expect 'a failure before what is missing' 1 '7 passed, 2 failed' "$hint" x VAPORETTO_SRC="$work/none" RT_SAYS='x\n2 passed, 1 failed\n' RT_EXIT=1
without=rt expect 'rt missing' 1 '0 passed, 1 failed' 'nothing else was run' "rt, the kit's command"

# Left out on purpose.
word=--without-rust
expect 'without Rust' 0 '8 passed, 0 failed' 'the Rust part was left out on purpose' x
without='rustc cc python3' expect 'without Rust, and only the sources there' 0 '8 passed, 0 failed' 'on purpose' x MACHINE=aarch64
without='rustc cc python3' expect 'without Rust or anything of it' 0 '8 passed, 0 failed' 'on purpose' x VAPORETTO_SRC="$work/none" MACHINE=riscv64
expect 'without Rust, a crate not proved' 1 '7 passed, 1 failed' 'on purpose' x RT_SAYS='x\n2 passed, 1 failed\n' RT_EXIT=1
expect 'without Rust, a check fails' 1 '7 passed, 1 failed' 'on purpose' z CHECKS_SAYS='z\n4 passed, 1 failed\n' CHECKS_EXIT=1
unset word host

# What is missing and can be installed is, and then the host is run.
without=rustc installs=yes expect 'a compiler installed' 0 '10 passed, 0 failed' '' 'rustc-web' APT_GIVES=rustc

# The words of test.sh.
for said in 'usage: bash test.sh' '--without-rust' VAPORETTO_SRC python3 'on four processors' 'installed' 'Status 0'; do
    ends 'the help' 0 "$said" bash "$here/test.sh" --help
done
ends 'an unknown word' 2 "there is no '--quick'" bash "$here/test.sh" --quick
ends 'an unknown word behind another' 2 "there is no 'more'" bash "$here/test.sh" --without-rust more

# The edits that the gate leaves out.
set -- bash "$here/further.sh"
mkdir -p "$here"/crates/one/{must-fail,must-fail-further,out}
touch "$here"/crates/one/must-fail/other.edit "$here"/crates/one/must-fail-further/{a,b}.edit "$here/crates/one/out/large"
refused='rt: must-fail one/a.edit: refused, as it must be: x\n'
ends 'all further edits refused' 0 'further.sh: 2 edits, 2 refused' RT_SAYS="$refused$refused" "$@"
ends 'a further edit not refused' 1 'further.sh: 2 edits, 1 refused' RT_SAYS="${refused}rt: must-fail one/b.edit: NOT REFUSED: x\n" RT_EXIT=1 "$@"
ends 'a further edit of which nothing is said' 1 'further.sh: 2 edits, 1 refused' RT_SAYS="$refused" "$@"
rm "$here"/crates/one/must-fail-further/*
ends 'no further edit' 1 'further.sh: 0 edits, 0 refused' RT_SAYS= "$@"
ends 'the help of the further edits' 0 'usage: bash further.sh' "$@" --help
ends 'a word for the further edits' 2 'further.sh: it takes no argument but --help: one' "$@" one
rm -r "$here"/crates/one/{must-fail,must-fail-further,out}

# The host's own part, for want of something.
without=rt ends 'the host without rt' 1 "host: FAILED: nothing was run, for this is missing: rt, the kit's command" bash "$here/host/whole.sh"
without=python3 installs=yes ends 'the host without python3' 1 'nothing was run, for this is missing: python3' bash "$here/host/whole.sh"
without=rustc installs=yes ends 'the host without a compiler' 1 'nothing was run, for this is missing: rustc 1.83' bash "$here/host/whole.sh"
ends 'the host without the sources' 1 $'VAPORETTO_SRC to the folder vaporetto/src of a checkout)\n0 passed, 1 failed' VAPORETTO_SRC="$work/none" bash "$here/host/whole.sh"

# The words of the host's scripts, and what they cannot do: status 2, and a line that says so.
for name in build check-test count example interrupted library link loader native record sizes whole withhold; do
    ends "$name with an unknown word" 2 "host/$name.sh: there is no '--more'" bash "$here/host/$name.sh" --more
    ends "the help of $name" 0 'Status 0: ' bash "$here/host/$name.sh" --help
done
ends 'both without a word' 2 'usage: host/both.sh check' bash "$here/host/both.sh"
ends 'both with an unknown word' 2 "host/both.sh: there is no 'contrast'" bash "$here/host/both.sh" contrast
ends 'the help of both' 0 'usage: host/both.sh check' bash "$here/host/both.sh" --help
for words in 'both.sh check' link.sh; do
    # shellcheck disable=SC2086
    set -- bash "$here/host/"$words
    ends "$words without the sources" 2 'VAPORETTO_SRC' VAPORETTO_SRC="$work/none" "$@"
    without=rt ends "$words without rt" 2 "this is missing: rt, the kit's command" "$@"
    without=rustc installs=yes ends "$words without a compiler" 2 'this is missing: rustc 1.83' "$@"
    rm -rf "$here/target"
    ends "$words where rt fails" 2 $'a word on the library\ncrate one: modules loaded=1 checked=2\nlogic=proved functions=3\nhost/link.sh: \'rt lib\' in crates/exports_c failed' RT_EXIT=1 "$@"
    ends "$words where the compiler fails" 2 $'a word of the compiler\nhost/link.sh: the compiler failed' "$@"
done
rm -rf "$here/target"
ends 'both that is not built' 2 'host/both.sh: the program could not be built' RT_EXIT=1 bash "$here/host/both.sh" check
for words in build.sh 'record.sh --check'; do
    # shellcheck disable=SC2086
    set -- bash "$here/host/"$words
    ends "$words without the sources" 2 'VAPORETTO_SRC' VAPORETTO_SRC="$work/none" "$@"
    without=rustc installs=yes ends "$words without a compiler" 2 'this is missing: rustc 1.83' "$@"
    ends "$words where the compiler fails" 2 $'a word of the compiler\nhost/build.sh: the compiler failed' "$@"
done
for name in count example library loader withhold; do
    set -- bash "$here/host/$name.sh"
    rm -rf "$here/target"
    without=rt ends "$name without rt" 2 "this is missing: rt, the kit's command" "$@"
    ends "$name where rt fails" 2 $'a word on the library\ncrate one: modules loaded=1 checked=2\nlogic=proved functions=3\nhost/'"$name.sh: 'rt lib' in crates/exports_c failed" RT_EXIT=1 "$@"
    [ "$name" = library ] || ends "$name where the compiler fails" 2 'the compiler of C failed' "$@"
done
without=python3 ends 'withhold without python3' 2 'this is missing: python3' bash "$here/host/withhold.sh"
# The desk: its words, and what is missing. Only `compare` needs the original.
set -- bash "$here/notes.sh"
ends 'the desk without a word' 2 'usage: bash notes.sh VERB' "$@"
ends 'the help of the desk' 0 'usage: bash notes.sh VERB' "$@" --help
ends 'the desk with an unknown verb' 2 "notes.sh: there is no 'twins'; it does check compare convert duplicates join keys withhold" "$@" twins
for verb in check compare convert duplicates join keys withhold; do
    without='rt rustc' ends "the help of $verb" 0 "usage: bash notes.sh $verb" "$@" "$verb" --help
done
rm -rf "$here/target"
without=rt ends 'the desk without rt' 2 "notes.sh: this is missing: rt, the kit's command" VAPORETTO_SRC="$work/none" "$@" check raw /dev/null
without=rustc installs=yes ends 'the desk without a compiler' 2 'this is missing: rustc 1.83' "$@" check raw /dev/null
ends 'the desk on another machine' 2 'this is riscv64' MACHINE=riscv64 "$@" check raw /dev/null
ends 'the desk where rt fails' 2 $'a word on the library\ncrate one: modules loaded=1 checked=2\nlogic=proved functions=3\nnotes.sh: \'rt lib\' in crates/exports_c failed' RT_EXIT=1 "$@" check raw /dev/null
ends 'the desk where the compiler fails' 2 $'a word of the compiler\nnotes.sh: the compiler failed' "$@" check raw /dev/null
ends 'the desk that is not built' 2 'notes.sh: it could not be built, for the reason above; nothing was done' "$@" check raw /dev/null
ends 'compare without the sources' 2 'VAPORETTO_SRC' VAPORETTO_SRC="$work/none" "$@" compare raw /dev/null
ends 'compare where the compiler fails' 2 $'a word of the compiler\nhost/link.sh: the compiler failed' "$@" compare raw /dev/null
set -- bash "$here/host/count.sh"
without=valgrind installs=yes ends 'count without valgrind' 2 "this is missing: valgrind (install Debian's package valgrind; apt-get update failed" "$@"
without=valgrind ends 'count without valgrind, and another user' 2 'only root' USER_ID=1000 "$@"
ends 'count on another machine' 2 'this is riscv64' MACHINE=riscv64 "$@"
ends 'count with a folder that has no library' 2 "there is no libexports.a or libconvert.a in $work/none" "$@" "$work/none"
ends 'count with a word too many' 2 "there is no 'more'" "$@" "$work/none" more
set -- bash "$here/host/sizes.sh"
rm -rf "$here/target"
without=rt ends 'sizes without rt' 2 "this is missing: rt, the kit's command" "$@"
ends 'sizes where rt fails' 2 $'a word on the library\ncrate one: modules loaded=1 checked=2\nlogic=proved functions=3\nhost/sizes.sh: \'rt lib\' in crates/exports_c failed' RT_EXIT=1 "$@"
ends 'sizes on another machine' 2 'this is riscv64' MACHINE=riscv64 "$@"
ends 'sizes with a folder that has no library' 2 "there is no libexports.a in $work/none" "$@" "$work/none"
ends 'sizes with a word too many' 2 "there is no 'more'" "$@" "$work/none" more
set -- bash "$here/host/native.sh"
ends 'native on an x86-64 machine' 2 'this is for an Arm machine, and this is x86_64: on x86-64 host/both.sh bench has no emulator' "$@"
without=rt ends 'native without rt' 2 "this is missing: rt, the kit's command" MACHINE=aarch64 "$@"
ends 'native on an Arm machine' 2 'this is missing: a kit for Arm machines' MACHINE=aarch64 "$@"
set -- bash "$here/host/count.sh"
stand_in "$work/bin/cc" <<<'exit 0'
ends 'count with a program that cannot be run' 2 'the type of each character, a call for each, notes P: the program failed with status 127' "$@"
ends 'the library that is built' 0 "$here/target/staticlib/libexports.a" bash "$here/host/library.sh"
ends 'the library on another machine' 2 'this is riscv64' MACHINE=riscv64 bash "$here/host/library.sh"
ends 'withhold where a copy is another' 1 'a word of python3' bash "$here/host/withhold.sh"

# The desk's program: built where it is not there or a source is newer, and how it ends.
built='notes.sh: what it needs is proved and built first; this takes some minutes'
set -- bash "$here/notes.sh" check raw /dev/null
stand_in "$work/away/program" <<<'echo "asked $*"; exit "$PROGRAM_EXIT"'
stand_in "$work/bin/rustc" <<'RUSTC'
[ "$1" != --version ] || { echo "$RUSTC" && exit; }
for word in "$@"; do
    [ "$before" != --crate-name ] || name=$word
    [ "$before" != --out-dir ] || folder=$word
    before=$word
done
[ "$name" = "$LEFT_OUT" ] || cp "$AWAY/program" "$folder/$name"
RUSTC
ends 'the desk where the compiler writes nothing' 2 "cannot write $here/target/host/notes/notes" LEFT_OUT=notes "$@"
rm -rf "$here/target"
ends 'the desk at the first call' 0 "$built"$'\nrt: one proved\nasked check raw /dev/null' PROGRAM_EXIT=0 "$@"
without='rt rustc cc' ends 'the desk at the second call' 0 'asked check' PROGRAM_EXIT=0 "$@"
[ "$text" = 'asked check raw /dev/null' ] || wrong 'the desk at the second call' 'it says more'
ends 'the desk that finds something' 1 'asked check' PROGRAM_EXIT=1 "$@"
ends 'the desk that has trouble' 2 'asked check' PROGRAM_EXIT=2 "$@"
ends 'the desk whose program is ended' 2 'notes.sh: the program ended with status 139 before its end' PROGRAM_EXIT=139 "$@"
for name in host/notes/main.rs host/sides/port.rs host/tools.sh crates/one/lib.rt crates.txt; do
    echo '# another line' >>"$here/$name"
    ends "the desk with a newer $name" 0 "$built" PROGRAM_EXIT=0 "$@"
done
set -- bash "$here/notes.sh" compare raw /dev/null
ends 'compare at the first call' 0 "$built"$'\n''asked compare raw /dev/null' PROGRAM_EXIT=0 "$@"
without='rt rustc cc' ends 'compare at the second call' 0 'asked compare' PROGRAM_EXIT=0 "$@"
[ "$text" = 'asked compare raw /dev/null' ] || wrong 'compare at the second call' 'it says more'
echo '// more code' >>"$work/sources/sentence.rs"
ends 'compare with newer sources of the original' 0 "$built" PROGRAM_EXIT=0 "$@"

# A crate that crates.txt does not name.
mkdir "$here/crates/on"
host=no expect 'a folder not listed' 1 '0 passed, 1 failed' 'nothing else was run' 'crates/on is not listed'
echo "$cases cases, all as expected"
