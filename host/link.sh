#!/usr/bin/env bash
# Builds target/host/x86/both and target/host/x86/compare, programs with the original and the port's static library in them. Does nothing where nothing
# has changed since. The folder `wrong` beside them has the same with a port that can be made wrong: they test whether that is reported.
set -eu
. "$(dirname "${BASH_SOURCE[0]}")/tools.sh"
no_words 'usage: host/link.sh
Builds target/host/x86/both and target/host/x86/compare, programs with the original and the port in them, where something has changed since;
host/both.sh runs the one, notes.sh compare the other.
Status 0: they stand there; 2: they could not be built.' "$@"
find_src || give_up_without "$(no_src)"
command -v rt >/dev/null || give_up_without "$(no_rt)"
find_x86 || give_up_without "$(no_x86)"
out=$out/x86
building "$out"
library "$out/staticlib.log"
archives=${here%/*}/target/staticlib

stamp=$("${x86[@]}" --version; echo "$src"; cat "$archives/libexports.a" "$src/sentence.rs" "$src/predictor.rs" "$here"/{link,tools}.sh "$here"/*/*.rs "$here/both/usage.txt" | sha256sum)
[ "$stamp" != "$(cat "$out/stamp" 2>/dev/null)" ] || exit 0
rm -f "$out/stamp"
extract "$out"
compile "$out" "${x86[@]}" --crate-type rlib --crate-name vaporetto "$here/original/lib.rs"
compile "$out" "${x86[@]}" --crate-type rlib --crate-name oracle --extern vaporetto "$here/oracle/lib.rs"
# Both programs, in a folder of their own: programs FOLDER CFG..
programs() {
    local with=("${x86[@]}" --extern vaporetto="$out/libvaporetto.rlib" --extern oracle="$out/liboracle.rlib" -L "$out" -L "$archives" "${cfgs[@]}" --cfg original "${@:2}")
    mkdir -p "$1" || give_up "cannot write to $1"
    compile "$1" "${with[@]}" --crate-type rlib --crate-name sides "$here/sides/lib.rs"
    compile "$1" "${with[@]}" --extern sides="$1/libsides.rlib" --crate-name both "$here/both/main.rs"
    compile "$1" "${with[@]}" --extern sides="$1/libsides.rlib" --crate-name compare "$here/notes/main.rs"
}
programs "$out"
programs "$out/wrong" --cfg wrong
echo "$stamp" >"$out/stamp"
