#!/bin/sh
# The proved library and the published Rust in one process, asked the same: beside.sh DOCS_SRC [SEED [PAYLOADS [FILE ..]]]
# DOCS_SRC is the folder that build.sh takes; FILEs are raw files to be asked too, beside those of samples/. Exit 1 at a difference that is not listed.
# Where GPMF_LIB names a folder with libgpmf.a, that is asked; else what `./gpmf lib` builds, or on aarch64 oracle/arm/library.
set -eu
[ $# -ge 1 ] || { echo "usage: $0 DOCS_SRC [SEED [PAYLOADS [FILE ..]]]" >&2; exit 2; }
here=$(CDPATH='' cd -- "$(dirname -- "$0")" && pwd)
docs=$1 seed=${2:-1} payloads=${3:-100000}
shift
[ $# -eq 0 ] || shift
[ $# -eq 0 ] || shift
if [ -z "${GPMF_LIB:-}" ]; then
    if [ "$(uname -m)" = aarch64 ]; then
        GPMF_LIB=$("$here/arm/library")
    else
        "$here/../gpmf" lib >&2
        GPMF_LIB=$here/../target/lib
    fi
fi
GPMF_LIB=$(CDPATH='' cd -- "$GPMF_LIB" && pwd)
export GPMF_LIB
"$here/build.sh" "$docs"
(cd "$here" && cargo build --release --offline --features beside --bin beside)
exec "$here/target/release/beside" "$seed" "$payloads" "$here"/../samples/*.raw "$@"
