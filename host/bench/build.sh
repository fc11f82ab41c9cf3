#!/bin/sh
# build.sh [SOURCE]: builds host/bench/build/release/bench over the archive of crates/nuvaleta_c and the original yangparser.rs and yanglib.rs, which are
# checked and cut as host/oracle/build.sh does it.
set -eu
here=$(cd "$(dirname "$0")" && pwd)
"$here/../oracle/build.sh" "$@"
cd "$here"
../archive/archive.sh --kept nuvaleta >/dev/null
../oracle/cargo.sh build --release --target-dir build
