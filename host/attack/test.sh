#!/bin/sh
# test.sh ARCHIVE [FILE..]: attacks the archive of crates/nuvaleta_c (attack.c) with a modest count, sees that each planted fault (planted.h) is
# noticed, and runs a little of it under valgrind.
# test.sh --x86-64 ARCHIVE: on another processor attacks an archive for x86-64 a little, by a cross compiler and an emulator; not part of the
# gate.
set -eu
here=$(cd "$(dirname "$0")" && pwd)
build=$here/build
said=$build/said
mkdir -p "$build"
cc=gcc
compile() { "$cc" -std=c11 -Wall -Wextra -Werror -O2 -I "$here/../../include" "$@"; }

if [ "$1" = --x86-64 ]; then
    [ -f "$2" ] || { echo "attack: SKIPPED, no archive for x86-64"; exit 0; }
    "$here/../need" gcc-x86-64-linux-gnu libc6-dev-amd64-cross qemu-user
    emulator=qemu-x86_64
    cc=x86_64-linux-gnu-gcc
    compile -static -DPLANTED -o "$build/x86-64" "$here/attack.c" "$here/calls.c" "$here/form.c" "$here/judge.c" "$here/lent.c" "$here/make.c" "$2"
    "$emulator" "$build/x86-64" --short 1 500 >"$said" 2>&1 || { cat "$said" >&2; exit 1; }
    told=$(tail -n 1 "$said")
    ! "$emulator" "$build/x86-64" --short --planted=1 1 0 >"$said" 2>&1 || { echo "attack: a planted fault is not noticed" >&2; exit 1; }
    echo "$told, on x86-64 by the emulator; a planted fault noticed"
    exit 0
fi
archive=$1
shift
"$here/../need" gcc libc6-dev binutils valgrind

# It keeps nothing and calls nobody: no data that can be written, and of other code only what copies and clears.
kept=$(nm "$archive" | grep ' [BbCDdSs] ' || :)
called=$(nm -u "$archive" | sed -n 's/^ *U //p' | grep -v '^mem\(cpy\|set\)$' || :)
[ -z "$kept$called" ] || { echo "attack: the archive has data or calls that it should not: $kept $called" >&2; exit 1; }

for part in attack form judge make; do compile -c -o "$build/$part.o" "$here/$part.c"; done
compile -c -DPLANTED -o "$build/planted.o" "$here/calls.c"
compile -c -DWITH_VALGRIND -o "$build/watched.o" "$here/lent.c"
for part in calls lent; do compile -c -o "$build/$part.o" "$here/$part.c"; done
link() { gcc -o "$build/$1" "$build/attack.o" "$build/form.o" "$build/judge.o" "$build/make.o" "$build/$2.o" "$build/$3.o" "$archive"; }
link attack calls lent
link planted planted lent
link watched planted watched

"$build/attack" 1 2000 "$@" >"$said" 2>&1 || { cat "$said" >&2; exit 1; }
told=$(tail -n 1 "$said")

# Each with what is to be said of it.
noticed() { # NUMBER WORDS
    status=0
    "$build/planted" --short --planted="$1" 1 300 >"$said" 2>&1 || status=$?
    { [ "$status" = 1 ] && grep -q "$2" "$said"; } || { echo "attack: planted fault $1 is not noticed: $2" >&2; exit 1; }
}
noticed 1 "dependencies: signal .* lent at their end, buffer 3"
noticed 2 "dependencies: signal .* lent at their start, buffer 0 .* place -1"
noticed 3 "dependencies: signal .* buffer 0 .* place 0"
noticed 4 "dependencies: a buffer on a refusal"
noticed 5 "dependencies: a buffer behind what is used"
noticed 6 "dependencies: returned another number"
noticed 7 "dependencies: a number that this call does not give"
noticed 8 "dependencies: a span outside"
noticed 9 "dependencies: two outcomes"
noticed 10 "graph: a buffer"
noticed 11 "graph: an edge twice"
noticed 12 "order: not the lowest\|order: no order"
noticed 13 "order_check: an order that breaks an edge is accepted"
noticed 14 "dependencies: signal .* read 0"
noticed 15 "graph: signal .* buffer 5"
noticed 16 "graph_complete: a number that this call does not give"
noticed 17 "graph_complete: other nodes"
noticed 18 "graph: a buffer behind what is used"
noticed 19 "graph: two outcomes"
noticed 20 "graph: over .* milliseconds"
noticed 21 "^attack: module m{container"
noticed 22 "dependencies: a number that this call does not give"
noticed 23 "dependencies_whole: 11 in the place of another"
noticed 24 "dependencies_whole: a keyword that does not come"
noticed 25 "dependencies_whole: a position that does not come"
noticed 26 "metadata_whole: the record on a refusal"
noticed 27 "dependencies_whole: not 11, and another outcome"
noticed 28 "dependencies: another place of the first wrong sequence"
noticed 29 "dependencies: another number than 1, 2 or 12"
noticed 30 "dependencies: a keyword at 3"
noticed 31 "dependencies: a position that does not come"
noticed 32 "dependencies: 3 where no character above 127 begins"
noticed 33 "dependencies: a span outside what is stored, or a value that is not UTF-8"

# valgrind's own status is 3, the harness's 1.
watch() { valgrind -q --error-exitcode=3 --track-origins=yes "$build/watched" --malloc --short "$@" >"$said" 2>&1; }
watch 1 2 || { cat "$said" >&2; exit 1; }
watched=$(tail -n 1 "$said")
for fault in "1 Invalid write of size 1" "9 left undefined"; do
    ! watch --once --planted="${fault%% *}" 1 0 && grep -q "${fault#* }" "$said" ||
        { echo "attack: valgrind does not notice planted fault $fault" >&2; exit 1; }
done
echo "$told; 33 planted faults noticed; under valgrind ${watched#attack: }"
