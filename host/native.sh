#!/usr/bin/env bash
# Prints the times of both sides on an Arm machine without an emulator, where the kit can compile the port for the machine at hand.
set -eu
. "$(dirname "${BASH_SOURCE[0]}")/tools.sh"
usage='usage: host/native.sh [--rounds N | --build]
On an Arm machine: the times of both sides, as host/both.sh bench prints them, without an emulator. It needs a kit that runs there, and the kit at hand is for
x86-64 alone, so it says that this is missing.
On an x86-64 machine host/both.sh bench has no emulator as it is.
Status 0: the times are printed; 1: the two do not answer alike; 2: words that are not understood, or a program that could not be built.'
case ${1-} in
'' | --rounds | --build) ;;
*) no_words "$usage" "$@" ;;
esac
machine=$(uname -m)
[ "$machine" = aarch64 ] || give_up "this is for an Arm machine, and this is $machine: on x86-64 host/both.sh bench has no emulator"
command -v rt >/dev/null || give_up_without "$(no_rt)"
give_up_without "a kit for Arm machines (the one at hand is for x86-64 alone)"
