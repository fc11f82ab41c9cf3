#!/bin/sh
# build.sh [SOURCE]: builds the oracle, host/oracle/build/oracle, from a folder of the NetGauze source (default: ../shared/docs/src beside
# the repository). The two files that it takes are known by their sha256; any other content is refused. Nothing of them is committed.
set -eu
here=$(cd "$(dirname "$0")" && pwd)
source=${1:-$here/../../../shared/docs/src}
src=$source/crates/netconf-proto/src
[ -f "$src/yangparser.rs" ] || { echo "oracle: no NetGauze source at $source" >&2; exit 3; }
sha256sum --quiet -c - <<EOF || { echo "oracle: that is not the source that document 01 speaks of" >&2; exit 1; }
0647d30d6388e6200eb3cd83889d5e94f2f72ee6835f4877e49592ab8beef9aa  $src/yangparser.rs
56d60209daa0ce165181141e60ec7efd79e94b13521e7dcf58ba8d1954914ba9  $src/yanglib.rs
EOF
"$here/../need" python3

mkdir -p "$here/build/src"
cp "$here/Cargo.toml" "$here/build/"
cp "$here"/src/*.rs "$here/../vectors/src/form.rs" "$src/yangparser.rs" "$here/build/src/"
sed 's/ fn match_keyword(/ fn matches(/' "$src/yangparser.rs" >"$here/build/src/renamed.rs"
python3 "$here/cut.py" "$src/yanglib.rs" "$here/build/src/yanglib.rs"
cd "$here/build"
"$here/cargo.sh" build --release
cp target/release/oracle oracle
