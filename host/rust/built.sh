#!/bin/sh
# built.sh: prints the path of the command, which is proved and built first where that has not been done yet or something has changed. Where nothing has
# changed it needs neither cargo nor rt: beside the command stands a sum of what it was built from, as that was before, and of itself.
set -eu
unset CDPATH CARGO_BUILD_TARGET NUVALETA_ARCHIVE # the command is for this machine, over the archive below
exec </dev/null # what is read there is for the command
cd "$(dirname "$0")"
archive=$(cd ../.. && host/archive/archive.sh --kept nuvaleta)
command=$PWD/build/release/nuvaleta
# The archive by its bytes alone: where it stands may change.
sources=$({
    sha256sum <"$archive"
    find -L src Cargo.toml build.sh ../archive/link.rs ../vectors/src/form.rs -type f -exec sha256sum {} + | sort
} | sha256sum)
sums() { echo "$sources $(sha256sum <"$command")"; }
if [ ! -f "$command" ] || [ "$(cat "$command.sums" 2>/dev/null)" != "$(sums)" ]; then
    command -v cargo >/dev/null || { echo "nuvaleta: cargo, Rust's command, is not on the path" >&2; exit 2; }
    [ ! -t 2 ] || echo "nuvaleta: building the command, which takes some seconds" >&2
    ./build.sh
    sums >"$command.sums.$$"
    mv "$command.sums.$$" "$command.sums"
fi
echo "$command"
