#!/usr/bin/env bash
# Builds target/host/oracle and its tests; does nothing where nothing has changed since.
set -eu
. "$(dirname "${BASH_SOURCE[0]}")/tools.sh"
no_words 'usage: host/build.sh
Builds target/host/oracle, the original as a program that answers lines, and its tests, where something has changed since.
Status 0: it stands there; 2: it could not be built.' "$@"
find_src || give_up_without "$(no_src)"
find_rustc || give_up_without "$(no_rustc)"
building "$out"

stamp=$("$rustc" --version; echo "$src"; cat "$src/sentence.rs" "$src/predictor.rs" "$here"/{build,tools}.sh "$here"/{original,oracle}/*.rs | sha256sum)
[ "$stamp" != "$(cat "$out/stamp" 2>/dev/null)" ] || exit 0
rm -f "$out/stamp"
extract "$out"
compile "$out" "$rustc" --crate-type rlib --crate-name vaporetto "$here/original/lib.rs"
compile "$out" "$rustc" --crate-type rlib --crate-name oracle --extern vaporetto "$here/oracle/lib.rs"
compile "$out" "$rustc" --crate-name oracle --extern oracle "$here/oracle/main.rs"
compile "$out" "$rustc" --crate-name oracle_tests --extern vaporetto --test "$here/oracle/lib.rs"
echo "$stamp" >"$out/stamp"
