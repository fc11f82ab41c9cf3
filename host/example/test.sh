#!/bin/sh
# test.sh [FILE.md LANGUAGE..]: makes the library, installs it into a fresh folder with a blank in its name, builds the example from what was installed
# alone and sees what it prints; then runs the examples in the installed header as C and C++, and the snippets of a Markdown file in these languages
# (snippets.py), which find an image and a bundle in the files `image` and `bundle`.
set -eu
unset CDPATH DESTDIR
here=$(cd "$(dirname "$0")" && pwd)
"$here/../need" gcc g++ libc6-dev make pkg-config python3
[ "$#" = 0 ] || {
    markdown=$(cd "$(dirname "$1")" && pwd)/$(basename "$1")
    shift
}
work=$(mktemp -d)
trap 'rm -rf "$work"' EXIT
fail() { echo "example: $*" >&2; exit 1; }

# Installed over an older file, twice; staged; in a relative place; by wrong words. Then it is moved.
"$here/../build" >/dev/null
has_all() { # FOLDER
    (cd "$1" && find . ! -type d | sort) >"$work/found"
    (cd "$here/../../target/made" && find . ! -type d | sed 's,\.link$,,' | sort) >"$work/due"
    cmp -s "$work/found" "$work/due" || fail "installed are $(cat "$work/found")"
    cmp "$here/../../include/nuvaleta.h" "$1/include/nuvaleta.h"
}
prefix="$work/a prefix"
mkdir -p "$prefix/include"
echo old >"$prefix/include/nuvaleta.h"
"$here/../install" "$prefix" >/dev/null
"$here/../install" "$prefix" >/dev/null
has_all "$prefix"
DESTDIR="$work/a stage" "$here/../install" /usr >/dev/null
has_all "$work/a stage/usr"
(cd "$work" && "$here/../install" relative/place >/dev/null)
has_all "$work/relative/place"
"$here/../install" --help >/dev/null || fail "install --help ends with $?"
for words in '' '--prefix=/x' '/x /y'; do
    status=0
    # shellcheck disable=SC2086
    "$here/../install" $words 2>/dev/null || status=$?
    [ "$status" = 2 ] || fail "install $words ends with $status"
done
mv "$prefix" "$work/another prefix"
export PKG_CONFIG_PATH="$work/another prefix/lib/pkgconfig"

mkdir "$work/a program"
cd "$work/a program"
cp "$here/example.c" "$here/Makefile" .
make -s CFLAGS='-std=c99 -O2 -Wall -Wextra -Werror -pedantic'
# STATUS, then the words; the file `due` is to be printed on standard output at status 0, else on standard error, and nothing on the other.
expect() {
    wanted=$1
    shift
    status=0
    ./example "$@" >out 2>err || status=$?
    said=err silent=out
    [ "$wanted" != 0 ] || { said=out && silent=err; }
    if [ "$status" != "$wanted" ] || ! cmp -s "$said" due || [ -s "$silent" ]; then
        fail "example $* ends with $status and prints $(cat out err)"
    fi
}

# The first graph of document 01; an import without prefix; an include that no module has; two modules that import each other; a form cut short.
printf '\001\002\001m\001\001s\000\000\001b\000\000\000\000' >image
printf '\003\001m\035include s;import b{prefix b;}\001s\023import b{prefix b;}\001b\000' >bundle
printf 'b\ns\nm\n' >due
expect 0 image bundle
printf '\003\001m\000\001s\000\001b\012import b{}' >closed
echo 'refused 25 at entry 2: its scan 7 keyword 8 at byte 10' >due
expect 1 image closed
printf '\003\001m\000\001s\000\001b\012include x;' >unknown
echo 'refused 27 at entry 2' >due
expect 1 image unknown
printf '\001\002\001m\000\000\000\001b\000\000\000\000' >pair
printf '\002\001m\023import b{prefix b;}\001b\023import m{prefix m;}' >texts
printf 'refused 40, a ring of 2:\nm\nb\n' >due
expect 1 pair texts
echo 'refused 21 at byte 0' >due
expect 1 image /dev/null
head -c 65537 /dev/zero >long
echo 'refused 20 at byte 0' >due
expect 1 long bundle
echo 'example: cannot open none' >due
expect 2 image none
echo 'example: cannot read .' >due
expect 2 . bundle
echo 'usage: example IMAGE BUNDLE' >due
expect 2 image
status=0
./example image bundle >/dev/full 2>err || status=$?
[ "$status" = 2 ] || fail "a full disk ends with $status"
echo "example: builds from what was installed alone, and prints and ends as it should"

# What is wrong with a snippet is seen: WHY, then the languages of the snippets in one.md.
refused() {
    why=$1
    shift
    ! "$here/snippets.py" one.md "$@" >out 2>&1 || fail "snippets taken: $(cat one.md)"
    grep -q "$why" out || fail "snippets refused, but not by '$why': $(cat out)"
}
# shellcheck disable=SC2016
block() { printf '```%s\n%s\n```\n' "$@" >one.md; } # LANGUAGE CODE..
block c 'assert(NUVALETA_CYCLE == 40);'
"$here/snippets.py" one.md c c++ >/dev/null
refused 'one.md has no snippet in rust' c rust
block c 'assert(NUVALETA_CYCLE == 41);'
refused 'one.md:2:.*Assertion' c
block c 'int unused;'
refused 'one.md:2:5: error: unused' c
block c 'int main(void) { return 3; }'
refused 'one.md:2: status 3' c++
block c 'puts("a");' output b
refused 'one.md:2: prints' c
echo '```c' >one.md
refused 'one.md:1: a fenced block' c

"$here/snippets.py" "$work/another prefix/include/nuvaleta.h" c c++ >/dev/null
echo "example: the header's examples run, as C and as C++"
[ -z "${markdown:-}" ] || "$here/snippets.py" "$markdown" "$@"
