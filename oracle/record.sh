#!/bin/sh
# Asks the built oracle the stored lists of questions, and stores lists and answers for each program that replays them: record.sh
# Where questions.py and the oracle are as they were, the files are too.
set -eu
cd -- "$(CDPATH='' cd -- "$(dirname -- "$0")" && pwd)"
[ -x target/release/gpmf-oracle ] || { echo "no oracle: build it first, build.sh DOCS_SRC" >&2; exit 2; }
room=$(mktemp -d)
trap 'rm -rf "$room"' EXIT
trap 'exit 130' HUP INT TERM
for program in replay replay_rows replay_kinds replay_values replay_axes replay_oriented replay_packets replay_quaternions replay_stamps replay_averages; do
    ./questions.py "$program" > "$room/stdin"
    target/release/gpmf-oracle < "$room/stdin" > "$room/stdout"
    cp "$room/stdin" "$room/stdout" "../crates/$program/"
    wc -c "../crates/$program/stdin" "../crates/$program/stdout"
done
