#!/bin/sh
# Asks the built oracle and a program of ours the same new questions and compares: compare.sh SEED TIMES PROGRAM COMMAND [WORD ..]
# PROGRAM is one that replays, as `replay` or `replay_rows`, or one kind of its questions, as `last` or `rows:walk`, and COMMAND runs it, as `./gpmf replay`,
# on as many questions at once as it reads; its words hold no space, for a shell reads them again. Exit 1 at a difference, with the first ten questions whose answers differ.
set -eu
[ $# -ge 4 ] || { echo "usage: $0 SEED TIMES PROGRAM COMMAND [WORD ..]" >&2; exit 2; }
here=$(CDPATH='' cd -- "$(dirname -- "$0")" && pwd)
[ -x "$here/target/release/gpmf-oracle" ] || { echo "no oracle: build it first, build.sh DOCS_SRC" >&2; exit 2; }
seed=$1 times=$2 program=$3
shift 3
room=$(mktemp -d)
trap 'rm -rf "$room"' EXIT
trap 'exit 130' HUP INT TERM
"$here/questions.py" --seed "$seed" --times "$times" "$program" > "$room/all"
grep -v '^$' "$room/all" > "$room/questions" # an empty line has no answer
"$here/target/release/gpmf-oracle" < "$room/questions" > "$room/oracle"
split -C 1048576 --filter="$*" "$room/questions" > "$room/ours"
if cmp -s "$room/oracle" "$room/ours"; then
    echo "$(wc -l < "$room/questions") questions, the same answers"
else
    paste -d '|' "$room/questions" "$room/oracle" "$room/ours" | awk -F '|' '$2 != $3' | cut -c 1-300 | head -n 10
    exit 1
fi
