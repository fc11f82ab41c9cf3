#!/bin/sh
# real-library.sh IMAGE BUNDLE: packs the real modules that real.sh lists, as one set. Of files under one name the last one listed is taken.
set -eu
here=$(cd "$(dirname "$0")" && pwd)
work=$(mktemp -d)
trap 'rm -rf "$work"' EXIT
files=$("$here/real.sh") # a command that fails in a for's words would be passed over
for file in $files; do
    name=${file##*/}
    name=${name%.yang}
    ln -sf "$file" "$work/${name%%@*}.yang"
done
"$here/../../nuvaleta" pack folder "$work" "$1" "$2"
