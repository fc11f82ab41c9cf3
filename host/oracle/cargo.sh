#!/bin/sh
# cargo.sh WORDS..: cargo with these words, offline, with Debian's petgraph and indexmap, and what they need, in the place of a registry.
set -eu
"$(dirname "$0")/../need" librust-petgraph-dev librust-indexmap-dev
registry=$(dpkg -L librust-petgraph-dev | sed -n 's|/petgraph-[0-9.]*/Cargo.toml$||p')
[ -n "$registry" ] || { echo "oracle: librust-petgraph-dev holds no crate" >&2; exit 1; }
exec cargo --offline --quiet --config 'source.crates-io.replace-with="debian"' --config "source.debian.directory=\"$registry\"" "$@"
