# Sourced by the scripts beside it, by test.sh and by checks/run.sh: where things stand, and how what they need is found or installed.

here=$(cd "$(dirname "${BASH_SOURCE[0]}")" && pwd)
out=${here%/*}/target/host
# What the script is called in its own words.
called=host/${0##*/}
# The folder that Debian's packages stand in; checks/gate.sh sets down one of its own.
usr=${IGHDELMUR_USR:-/usr}
# The original needs rustc 1.83, and so does the Rust beside this file.
needed=83
# Why the last package was not installed.
why=

# Finds all that the Rust part needs: sets `src`, `rustc`, `rustdoc`, `x86` and `cc`, and prints a line for each thing that is missing.
# What Debian has is installed where it is missing; where the original's sources are missing or the machine is no x86-64 one, nothing is.
lacking() {
    command -v rt >/dev/null || no_rt
    if ! find_src; then
        no_src
        command -v python3 >/dev/null || no_python
        return 0
    fi
    is_x86 || { no_x86 && return 0; }
    command -v python3 >/dev/null || { packages update && packages install python3; } || no_python
    find_x86 || no_x86
}

# What is missing, and what to do: a line of each.
no_rt() { echo "rt, the kit's command (put it on PATH)"; }
no_src() { echo "the original's sources (no sentence.rs and predictor.rs in $src: set VAPORETTO_SRC to the folder vaporetto/src of a checkout)"; }
no_python() { echo "python3 (install it${why:+; $why})"; }
no_valgrind() { echo "valgrind (install Debian's package valgrind${why:+; $why})"; }
no_rustc() { echo "rustc 1.$needed or later with rustdoc, and cc (install them${why:+; $why})"; }
no_x86() {
    if is_x86; then
        no_rustc
    else
        echo "an x86-64 machine (the kit and the port's static library are for x86-64 alone, and this is $(uname -m))"
    fi
}

# Sets `src` to the folder of the original's sources, or fails.
find_src() {
    src=${VAPORETTO_SRC:-$here/../../shared/docs/src/vaporetto/src}
    src=$(cd "$src" 2>/dev/null && pwd || echo "$src")
    [ -f "$src/sentence.rs" ] && [ -f "$src/predictor.rs" ]
}

# Sets `rustc` and `rustdoc` to a compiler that is new enough and can link, from PATH, from cargo's folder or from Debian, or fails.
find_rustc() {
    compiles || { install_rustc && compiles; }
}

compiles() {
    has_rustc && command -v cc >/dev/null
}

has_rustc() {
    new_enough rustc || new_enough "${CARGO_HOME:-${HOME-}/.cargo}/bin/rustc" || new_enough "$usr/bin/rustc"
}

# Sets `rustc` and `rustdoc` where a compiler is new enough, or fails.
new_enough() {
    [[ $("$1" --version 2>/dev/null) =~ ^rustc\ 1\.([0-9]+)\. ]] && ((BASH_REMATCH[1] >= needed)) || return 1
    rustc=$(command -v "$1")
    rustdoc=${rustc%/*}/rustdoc
    [ -x "$rustdoc" ]
}

# Sets `x86` to the call of a compiler for x86-64, the only processor of the kit and of a static library of Rattle, and `cc` to one for C, or fails.
find_x86() {
    is_x86 && find_rustc || return 1
    x86=("$rustc")
    cc=(cc)
}

is_x86() {
    [ "$(uname -m)" = x86_64 ]
}

# Debian's compiler, or only a linker where a compiler is there: rustc-web is the newer one where rustc itself is old.
install_rustc() {
    packages update || return 1
    if has_rustc; then
        packages install gcc libc6-dev
    else
        packages install rustc-web || packages install rustc
    fi
}

# Debian's package manager, where there is one and it may be used. It takes nothing away.
packages() {
    local said
    may_install || return 1
    [ "$1" = update ] || echo "host: installing with apt-get: ${*:2}" >&2
    said=$(DEBIAN_FRONTEND=noninteractive timeout 600 apt-get -o DPkg::Lock::Timeout=60 -y --no-remove --no-install-recommends "$@" 2>&1 </dev/null) && return
    why="apt-get $1 failed: $(grep . <<<"$said" | tail -n 1)"
    return 1
}

# Whether packages may be installed: by root, with apt-get, and not where IGHDELMUR_INSTALL is `no`.
may_install() {
    if [ "${IGHDELMUR_INSTALL-}" = no ]; then
        why='IGHDELMUR_INSTALL=no: nothing is installed'
    elif ! command -v apt-get >/dev/null; then
        why='there is no apt-get to do it'
    elif [ "$(id -u)" != 0 ]; then
        why='only root can have it done by apt-get'
    else
        return 0
    fi
    return 1
}

# Ends a script that cannot do its work with status 2: give_up LINE..
give_up() {
    printf "$called: %s\n" "$@" >&2
    exit 2
}

# Ends a script for want of something: give_up_without THING, as one of the lines above says it.
give_up_without() {
    give_up "this is missing: $1"
}

# Answers the words given to a script that takes none: no_words USAGE "$@"
no_words() {
    [ $# != 1 ] || return 0
    [ "$2" != --help ] || { echo "$1" && exit 0; }
    echo "$called: there is no '$2'" >&2
    echo "$1" >&2
    exit 2
}

# Makes a folder to build into, and has one script at a time build: building FOLDER
building() {
    mkdir -p "$1" && exec 9>"${here%/*}/target/host/lock" && flock 9 || give_up "cannot write to $1"
}

# Of what rt prints while it proves and builds, a line for each crate as it is proved: a script of sed.
each_proved='/^crate /{s/^crate \([^:]*\):.*/rt: \1 proved/;h}; /^logic=proved/{g;/./p}'

# The port's static library: the crate exports_c, proved and built by rt where a crate or the kit has changed since, under the name that C links. What rt
# says is shown where it fails, and where `tells` is set each crate as it is proved: library LOG
library() {
    local log=$1 crates made=${here%/*}/crates/exports_c/out/libexports_c.a archive=${here%/*}/target/staticlib/libexports.a stamp=${here%/*}/target/host/libexports.stamp
    crates=$(rt version </dev/null; cd "$here/.." && find crates.txt crates \( -name out -o -name 'must-fail*' \) -prune -o -type f -print0 | LC_ALL=C sort -z | xargs -0 sha256sum | sha256sum)
    [ ! -f "$archive" ] || [ "$crates $(sha256sum <"$archive")" != "$(cat "$stamp" 2>/dev/null)" ] || return 0
    rm -f "$stamp"
    (set -o pipefail && cd "$here/../crates/exports_c" && rt lib 2>&1 </dev/null | tee "$log" | sed -un "${tells:+$each_proved}" >&2) ||
        { cat "$log" >&2 && give_up "'rt lib' in crates/exports_c failed: its words are above"; }
    [ -f "$made" ] || give_up "'rt lib' in crates/exports_c wrote no $made"
    mkdir -p "${archive%/*}" && cp "$made" "$archive" || give_up "cannot write $archive"
    echo "$crates $(sha256sum <"$archive")" >"$stamp"
}

# Writes the boundary decision, out of the original's own text, into a folder.
extract() {
    {
        echo '{'
        sed -n '/^        for (b, s) in sentence$/,/^        sentence\.set_predictor(self);$/p' "$src/predictor.rs"
        echo '}'
    } >"$1/decision.rs"
    grep -q 'sentence\.set_predictor(self);' "$1/decision.rs" || give_up "$src/predictor.rs has no boundary decision where it was"
}

# What the host's Rust may be told: whether the original is built in, and whether the port can be made wrong.
cfgs=(--check-cfg 'cfg(original)' --check-cfg 'cfg(wrong)')

# A compiler's call with the settings that all the host's Rust has, for what it builds into a folder: compile FOLDER CALL..
compile() {
    local folder=$1
    shift
    VAPORETTO_SRC=${src-} EXTRACT=$folder "$@" --edition 2021 -O -L "$folder" --out-dir "$folder" >&2 || give_up 'the compiler failed: its words are above'
}
