#!/bin/sh
# The library before a change of its passes and the library after it in one process, asked the same:
#   before.sh BEFORE AFTER [SEED [PAYLOADS]]
# BEFORE and AFTER are folders with a libgpmf.so each. With no SEED it takes 1, and with no PAYLOADS 100,000. Exit 1 at
# a difference. With --same-headers before SEED, both must count the headers of a reading as before. Instead of these:
#   before.sh BEFORE AFTER --time TAKE  times both by turns on the packets of TAKE, a raw file as of bench/make_take.py
#   before.sh BEFORE AFTER --stack      how many bytes of the stack a reading takes in each
# Needs cc.
set -eu
usage="usage: $0 BEFORE AFTER [[--same-headers] [SEED [PAYLOADS]] | --time TAKE | --stack]"
[ $# -ge 2 ] || { echo "$usage" >&2; exit 2; }
here=$(CDPATH='' cd -- "$(dirname -- "$0")" && pwd)
before=$(CDPATH='' cd -- "$1" && pwd)/libgpmf.so
after=$(CDPATH='' cd -- "$2" && pwd)/libgpmf.so
shift 2
for library in "$before" "$after"; do
    [ -f "$library" ] || { echo "before.sh: there is no $library" >&2; exit 2; }
done
scratch=$(mktemp -d)
trap 'rm -rf -- "$scratch"' EXIT
trap 'exit 130' HUP INT TERM
cc -std=c11 -O2 -Wall -Wextra -I "$here/../include" -o "$scratch/before" "$here/before.c" -ldl
"$scratch/before" "$before" "$after" "$@"
