#!/bin/sh
# check.sh [alone | over | behind]: the host's quick checks. `alone`: those that need no archive of this repository: the documents, the picture of the crates,
# that an archive can be made, the packing of images and bundles, and the recorded answers of the original Rust. `over`: what is seen while an archive is made;
# the archive from C, installed too, and under attack, the Rust crate and its command, packing with it, the examples, the README's snippets; the port beside
# plain readings, libyang and the original. `behind`: what deps and meta print, which rt proves again where it has not run them yet. With no word, all three.
# What needs the NetGauze source, or a newer Rust, is skipped where that is not at hand, and says so.
set -eu
here=$(cd "$(dirname "$0")" && pwd)
cd "$here/.."
which=${1:-all}
compare=$here/compare/build/release/compare
minor=$(rustc --version 2>/dev/null | sed -n 's/^rustc 1\.\([0-9]*\)\..*/\1/p')
command -v cargo >/dev/null || minor=0
minor=${minor:-0}
work=$(mktemp -d)
parts=
# shellcheck disable=SC2086
trap '[ -z "$parts" ] || kill $parts 2>/dev/null || :; rm -rf "$work"' EXIT
trap 'exit 130' INT TERM

# Two of the functions below at once. The first one's output is shown as it comes, the second one's behind it. One that fails fails the whole.
both() {
    "$1" &
    first=$!
    "$2" >"$work/said" 2>&1 &
    second=$!
    parts="$first $second"
    failed=
    wait "$first" || failed="$failed $1"
    wait "$second" || failed="$failed $2"
    parts=
    cat "$work/said"
    [ -z "$failed" ] || { echo "host: failed:$failed" >&2; exit 1; }
}

skip() { echo "host: SKIPPED, $1: $2"; }

# The oracle, from the original Rust. 1: it cannot be built here.
judged() {
    rest="the oracle, the recorded answers and the comparison"
    [ "$minor" -ge 88 ] || { skip "no Rust of 1.88 or newer" "$rest"; return 1; }
    status=0
    "$here/oracle/build.sh" || status=$?
    [ "$status" != 3 ] || { skip "no NetGauze source" "$rest with the original"; return 1; }
    [ "$status" = 0 ] || exit "$status"
}

alone() {
    "$here/readme/reading.py" README.md
    "$here/readme/named.py"
    "$here/readme/outcomes.py"
    "$here/architecture/test.sh"
    "$here/archive/test.sh"
    "$here/pack/test.py"
    judged || return 0
    "$here/oracle/test.py"
    "$here/vectors/build.sh"
    "$here/vectors/build/release/vectors" verify "$here/../crates"
}

from_c_and_rust() {
    "$here/c/test.sh" "$archive"
    "$here/attack/test.sh" "$archive"
    rust=rust
    [ "$minor" -ge 63 ] || rust=
    # shellcheck disable=SC2086
    "$here/example/test.sh" README.md c $rust
    [ -n "$rust" ] || { skip "no Rust of 1.63 or newer" "the Rust crate and the command"; return 0; }
    "$here/rust/test.sh"
    "$here/rust/test_all.py"
    "$here/pack/test_texts.py"
    "$here/package/test.py"
    "$here/first/record.py" --check
    "$here/../examples/test.sh"
}

# The first seven ask the original nothing. Where the original never ends, the texts wait for it: the others go on beside them.
compared() {
    [ "$minor" -ge 88 ] || { skip "no Rust of 1.88 or newer" "the comparison"; return 0; }
    "$here/compare/build.sh"
    "$compare" edges
    "$compare" changes 3 24
    "$compare" whole 9 20000
    "$compare" accents 9 20000
    "$compare" complete 9 5000
    "$compare" orders 13 20000
    "$here/libyang/test.py"
    judged || return 0
    "$compare" texts 7 10000 >"$work/texts" 2>&1 &
    texts=$!
    # shellcheck disable=SC2086
    "$compare" files 3 3 $real
    "$compare" whole-beside 9 2000
    "$compare" accents-beside 9 2000
    "$compare" finds 5 2000
    "$compare" graphs 9 2000
    "$compare" sorts 13 5000
    yuma=$(dpkg -L libyuma-base | grep '/yuma/modules$')
    "$here/../nuvaleta" pack folder "$yuma" "$work/libyuma-base.image" "$work/libyuma-base.bundle"
    "$compare" graph-of "$work/libyuma-base.image" "$work/libyuma-base.bundle"
    "$here/vectors/real-library.sh" "$work/real.image" "$work/real.bundle"
    "$compare" graph-of "$work/real.image" "$work/real.bundle"
    status=0
    wait "$texts" || status=$?
    cat "$work/texts"
    return "$status"
}

# The archive takes one processor, and what is seen while one is made takes mostly waiting: so they run beside each other.
proved() {
    "$here/archive/archive.sh" nuvaleta >"$work/archive"
    [ "$minor" -lt 63 ] || "$here/rust/built.sh" >/dev/null # both parts behind it ask for it
}

seen() { "$here/archive/test.py"; }

over() {
    both proved seen
    archive=$(cat "$work/archive")
    both from_c_and_rust compared
}

behind() { "$here/programs/test.py"; }

# All that two parts could both want to install, and the packages that the packing's tests look for.
"$here/need" gcc g++ libc6-dev binutils make pkg-config python3 valgrind libyang2-dev libyang2-tools
real=$("$here/vectors/real.sh")
case $which in
alone | over | behind) "$which" ;;
all)
    alone
    over
    behind
    ;;
*)
    echo "usage: host/check.sh [alone | over | behind]" >&2
    exit 2
    ;;
esac
