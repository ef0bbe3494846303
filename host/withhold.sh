#!/usr/bin/env bash
# Builds host/withhold.c with the static library of crates/exports_c, and holds the withheld copies and the keys that it prints to a second reading.
set -eu
. "$(dirname "${BASH_SOURCE[0]}")/tools.sh"
no_words 'usage: host/withhold.sh
Builds host/withhold.c with the static library of crates/exports_c, and has host/withheld.py ask it for withheld copies and keys and compare them with
a second reading, crates/test_hiding/reading.py.
Status 0: all are the same; 1: one is not; 2: it could not be built or run.' "$@"
command -v rt >/dev/null || give_up_without "$(no_rt)"
command -v python3 >/dev/null || give_up_without "$(no_python)"
find_x86 || give_up_without "$(no_x86)"
out=$out/withhold
building "$out"
library "$out/staticlib.log"
archive=${here%/*}/target/staticlib/libexports.a

"${cc[@]}" -std=c11 -Wall -Wextra -Werror -O -o "$out/asked" "$here/withhold.c" "$archive" || give_up 'the compiler of C failed: its words are above'
python3 "$here/withheld.py" "$out/asked"
