#!/bin/sh
# archive.sh [--kept] [--covered] NAME [PROCESSOR]: in a repository of Rattle, proves the library NAME and prints the path of a static archive
# of it, for C or Rust on this processor (or the one named) to link. A crate is a library or a static library, and not both: where crates.txt
# has a static library NAME_c, which exports what C calls of NAME, the archive is made of that one, else of the crate NAME itself. Beside it
# goes a sum of the sources, as they were before the proof, and of the archive. With --kept, one that still has these sums is taken as it is.
# Of two calls at once the second waits for the first.
#
# On x86-64 and aarch64 it is rt's own, for every processor of that kind. For another processor the module that is proved for x86-64 is
# compiled anew: rt runs in a copy of its kit that differs in one file, toolchain/bin/clang, a wrapper that puts the processor's name in the
# place of x86-64. With --covered that wrapper also has the compiler count which parts of the code are reached, for a fuzzer. Archives for
# another processor than x86-64, and those that count, are for tests and measurements only.
set -eu
unset CDPATH
exec </dev/null # what is read there is not for rt
here=$(cd "$(dirname "$0")" && pwd)
kept='' covered=''
[ "${1:-}" != --kept ] || { kept=yes && shift; }
[ "${1:-}" != --covered ] || { covered=-fsanitize-coverage=inline-8bit-counters,pc-table,trace-cmp && shift; }
name=${1:?usage: archive.sh [--kept] [--covered] NAME [PROCESSOR]}
processor=${2:-$(uname -m)}
root=$PWD
while [ ! -f "$root/crates.txt" ]; do
    [ "$root" != / ] || { echo "archive: no crates.txt in this folder or above it" >&2; exit 2; }
    root=$(dirname "$root")
done

# Of the static library NAME_c, where there is one, or else of the crate NAME, and of the crates of this repository that it depends on, however
# far, each one's line of crates.txt: a crate's behind those of the crates that it depends on, as rt proves them.
reached() {
    awk -v name="$name" '
        function visit(crate,    names, n, i) {
            if (!(crate in deps) || crate in seen) return
            seen[crate] = 1
            n = split(deps[crate], names)
            for (i = 1; i <= n; i++) visit(names[i])
            print crate kind[crate] ":" deps[crate]
        }
        {
            sub(/#.*/, "")
            left = right = $0
            sub(/:.*/, "", left)
            if (!sub(/[^:]*:/, "", right)) right = ""
            if (!split(left, words)) next
            sub(/^[ \t]*[^ \t]+/, "", left)
            sub(/[ \t]+$/, "", left)
            kind[words[1]] = left
            deps[words[1]] = right
        }
        END { visit(kind[name "_c"] ~ /^[ \t]+staticlib/ ? name "_c" : name) }' "$root/crates.txt"
}
crates=$(reached | sed 's/[: \t].*//')
crate=$(echo "$crates" | sed -n '$p')
[ -n "$crate" ] || { echo "archive: crates.txt has no crate $name" >&2; exit 2; }
made=$root/crates/$crate/out/lib$crate.a # where rt puts it
archive=$root/target/staticlib/lib$name.a
[ "$processor" = x86_64 ] || archive=$root/target/staticlib/$processor/lib$name.a # link.rs looks there too
[ -z "$covered" ] || archive=$root/target/staticlib/covered/$processor/lib$name.a

# All that rt reads of them: *.rt of src, *.antt of specs and proofs, also where a link leads. Nothing else of a crate is in its archive.
sources() {
    set --
    for each in $crates; do
        for part in src specs proofs; do [ ! -d "$root/crates/$each/$part" ] || set -- "$@" "crates/$each/$part"; done
    done
    [ "$#" = 0 ] || { reached && cd "$root" && find -L "$@" -type f \( -name '*.rt' -o -name '*.antt' \) -exec sha256sum {} + | sort; } | sha256sum
}
sums() { echo "$sources $(sha256sum <"$archive")"; }
answer_kept() {
    sources=$(sources)
    [ -z "$kept" ] || [ ! -f "$archive" ] || [ "$(cat "$archive.sums" 2>/dev/null)" != "$(sums)" ] || { echo "$archive" && exit 0; }
}
answer_kept

command -v rt >/dev/null || { echo "archive: rt, the command of the Rattle kit, is not on the path" >&2; exit 2; }
mkdir -p "$(dirname "$archive")"
exec 9>"$root/target/archive.lock"
if ! flock -n 9; then
    echo "$name: waiting for another build" >&2
    flock 9
    answer_kept
fi
# Who asks for a kept one does not expect to wait.
if [ -n "$kept" ]; then
    echo "$name: proving and building, once; this takes some minutes" >&2
    [ ! -t 2 ] || [ "$name" != nuvaleta ] || echo "$name: about 20 minutes on two processors, 4 GB of memory, 1500 MB of disk" >&2
fi

mirror=''
trap '[ -z "$mirror" ] || rm -rf "$mirror"' EXIT
trap 'exit 130' INT TERM HUP

# All of a folder but these entries, by links.
link() { # FROM TO BUT..
    from=$1 to=$2
    shift 2
    mkdir -p "$to"
    for entry in "$from"/*; do
        case " $* " in *" ${entry##*/} "*) ;; *) ln -s "$entry" "$to/" ;; esac
    done
}
# The kit with another clang. rt's kit is the folder that its own files really lie in, so these two are copied. What it keeps beside its kit goes with the copy.
other_kit() { # PROCESSOR, or nothing for the one that rt compiles for
    kit=$(cd "$(dirname "$(rt doc)")" && pwd)
    mirror=$(mktemp -d)
    link "$kit" "$mirror/kit" bin toolchain
    link "$kit/bin" "$mirror/kit/bin" rt rtlib.py
    cp "$kit/bin/rt" "$kit/bin/rtlib.py" "$mirror/kit/bin/"
    link "$kit/toolchain" "$mirror/kit/toolchain" bin
    link "$kit/toolchain/bin" "$mirror/kit/toolchain/bin" clang
    cat >"$mirror/kit/toolchain/bin/clang" <<EOF
#!/bin/sh
[ -z "$1" ] || for word in "\$@"; do
    shift
    case \$word in
    --target=*) set -- "\$@" --target=$1-unknown-linux-gnu -Wno-override-module ;;
    -march=* | -Werror) ;;
    *) set -- "\$@" "\$word" ;;
    esac
done
# It warns of the x86-64 that the module names as its processor; what it says is of interest only where it fails.
"$kit/toolchain/bin/clang" "\$@" $covered 2>"$mirror/said" || { cat "$mirror/said" >&2; exit 1; }
EOF
    chmod +x "$mirror/kit/toolchain/bin/clang"
    export PATH="$mirror/kit/bin:$PATH"
}
# A static library does not look at what it runs on, so none is made for a newer processor than need be, which is what rt makes for x86-64 by itself.
target=--cpu=x86-64 foreign=''
case $processor in
x86_64) ;;
aarch64) target="--target aarch64-unknown-linux-gnu" ;;
*) foreign=$processor ;;
esac
[ -z "$covered$foreign" ] || other_kit "$foreign"
# shellcheck disable=SC2086
(cd "$root/crates/$crate" && exec "$here/prove.sh" "$root/target/archive.say" "$crates" $target)
mv "$made" "$archive.new"
mv "$archive.new" "$archive"
sums >"$archive.sums.new"
mv "$archive.sums.new" "$archive.sums"
echo "$archive"
