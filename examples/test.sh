#!/bin/sh
# test.sh: the sources packed again give the bytes that stand here, yanglint takes the texts, and ../nuvaleta prints the graph and the order that
# stand here; half a text is refused. The archive must be there, as for ../host/rust/test.sh.
set -eu
here=$(cd "$(dirname "$0")" && pwd)
work=$(mktemp -d)
trap 'rm -rf "$work"' EXIT
fails=0
# Two files that are to be the same, and what the first one is.
same() { cmp -s "$1" "$2" || { fails=$((fails + 1)) && echo "examples: $3 differs" && diff "$1" "$2" || :; }; }
# yanglint reads a submodule with the module that includes it.
valid() {
    for file in "$here/$1"/*.yang; do
        ! grep -q '^module' "$file" || yanglint -Q -p "$here/$1" "$file" || { fails=$((fails + 1)) && echo "examples: $file is not valid"; }
    done
}
# The folder of a router, what its image, bundle, graph and order are called without their endings, and options.
router() {
    folder=$1 files=$here/$2
    shift 2
    "$here/../nuvaleta" pack library "$@" "$here/$folder"/library.* "$here/$folder" "$work/image" "$work/bundle" >/dev/null 2>&1 || fails=$((fails + 1))
    same "$files.image" "$work/image" "the image of $folder, packed again,"
    same "$files.bundle" "$work/bundle" "the bundle of $folder, packed again,"
    ! command -v yanglint >/dev/null || valid "$folder"
    for word in graph order; do
        "$here/../nuvaleta" "$word" "$@" "$files.image" "$files.bundle" >"$work/said" || fails=$((fails + 1))
        same "$files.$word" "$work/said" "nuvaleta $word $* of $folder"
    done
}

"$here/../host/need" libyang2-tools || echo "examples: SKIPPED, no yanglint: whether the texts are valid"
router edge edge
router core core
router twice twice/router --complete
status=0
"$here/../nuvaleta" order "$here/twice/router.image" "$here/twice/router.bundle" >/dev/null 2>"$work/said" || status=$?
[ "$status" = 1 ] && grep -q '^refused 28: module acme-chassis (set 1, entry 2)' "$work/said" || {
    fails=$((fails + 1))
    echo "examples: nuvaleta order of twice, without --complete, ends with $status and says" && cat "$work/said"
}
head -c 392 "$here/edge/acme-nat@2024-06-10.yang" >"$work/half"
status=0
"$here/../nuvaleta" deps --whole "$work/half" >/dev/null || fails=$((fails + 1))
"$here/../nuvaleta" meta --whole - <"$work/half" >/dev/null 2>"$work/said" || status=$?
[ "$status" = 1 ] && grep -q '^refused 11: standard input, line 22, column 17: ' "$work/said" || {
    fails=$((fails + 1))
    echo "examples: nuvaleta meta --whole of half a text ends with $status and says" && cat "$work/said"
}
[ "$fails" = 0 ] || exit 1
echo "examples: the three routers are packed to the same bytes, and have the graph and the order that stand here; half a text is refused"
