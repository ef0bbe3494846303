#!/usr/bin/env bash
# Proves and builds the port's static library, target/staticlib/libexports.a.
set -eu
. "$(dirname "${BASH_SOURCE[0]}")/tools.sh"
no_words 'usage: host/library.sh
Has rt prove and build the static library of crates/exports_c, and copies it to target/staticlib/libexports.a, the name that C links; does nothing where
nothing has changed since. At its first call it takes some minutes. It needs rt alone, and prints where the library stands.
Status 0: it stands there; 2: it could not be built.' "$@"
command -v rt >/dev/null || give_up_without "$(no_rt)"
is_x86 || give_up_without "$(no_x86)"
out=$out/library
building "$out"
tells=yes library "$out/staticlib.log"
echo "${here%/*}/target/staticlib/libexports.a"
