#!/bin/sh
# build.sh: builds host/vectors/build/release/vectors.
set -eu
cd "$(dirname "$0")"
cargo build --release --offline --quiet --target-dir build
