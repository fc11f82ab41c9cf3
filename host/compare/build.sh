#!/bin/sh
# build.sh: builds host/compare/build/release/compare over the archive of crates/nuvaleta_c for this processor, which is proved and made where it is not
# that of the sources.
set -eu
cd "$(dirname "$0")"
../archive/archive.sh --kept nuvaleta >/dev/null
cargo build --release --offline --quiet --target-dir build
