#!/bin/sh
# test.sh: the picture of the crates is the one of crates.txt, and that this is seen: a crate more, a crate that names a later floor, one that is on no floor,
# a name that is no crate, and a ring must each be refused in their own words.
set -eu
here=$(cd "$(dirname "$0")" && pwd)
"$here/draw.py" --check
work=$(mktemp -d)
trap 'rm -rf "$work"' EXIT
"$here/draw.py" "$here/../../crates.txt" "$work/picture"

# WHY, then the list, of which the picture is that of crates.txt.
refused() {
    printf %b "$2" >"$work/list"
    ! "$here/draw.py" --check "$work/list" "$work/picture" >"$work/said" 2>&1 || { echo "architecture: taken: $2" >&2; exit 1; }
    grep -q "$1" "$work/said" || { echo "architecture: refused, but not by '$1': $(cat "$work/said")" >&2; exit 1; }
}
refused 'is not the picture of these crates any more' '# one\na:\n# two\nb: a\n'
refused "a, of the floor 'one', names b, of a later floor, 'two'" '# one\na: b\n# two\nb:\n'
refused 'a stands on no floor' 'a:\n'
refused 'a is there twice' '# one\na:\na:\n'
refused 'a names c, which is no crate' '# one\na: c check\n'
refused 'depends on itself' '# one\na: b\nb: a\n'
echo "architecture: what is wrong with a list or a picture is told"
