#!/bin/sh
# build.sh [WORD..]: builds host/rust/build/release/nuvaleta over the archive that host/archive has made; with a word of cargo, as test, that instead.
set -eu
cd "$(dirname "$0")"
command -v cc >/dev/null || ../need gcc libc6-dev # cargo links with it
[ "$#" != 0 ] || set -- build
exec cargo "$@" --release --offline --quiet --target-dir build
