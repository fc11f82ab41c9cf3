#!/bin/sh
# test.sh: the crate's tests over the archive that host/archive has made, then the command: what it prints where, and its exit status; its warnings over
# real modules.
set -eu
here=$(cd "$(dirname "$0")" && pwd)
root=$(cd "$here/../.." && pwd)
"$here/../need" python3 # for pack
work=$(mktemp -d)
trap 'rm -rf "$work"' EXIT
cd "$work"
"$here/build.sh" test >tested 2>&1 || { cat tested >&2; exit 1; }

nuvaleta=$root/nuvaleta
fails=0
wrong() {
    fails=$((fails + 1))
    echo "rust: nuvaleta $1; on standard output:" && cat out && echo "on standard error:" && cat err
}
# STATUS, then the words; standard input is the file `in`. The file `due` is to be printed on standard output at status 0, for a refusal as JSON and by
# check, else on standard error, and nothing on the other.
expect() {
    wanted=$1
    shift
    status=0
    "$nuvaleta" "$@" <in >out 2>err || status=$?
    said=err silent=out
    case "$wanted $*" in 0* | 1*--json* | '1 check '*) said=out silent=err ;; esac
    [ "$status" = "$wanted" ] && cmp -s "$said" due && [ ! -s "$silent" ] || wrong "$*: status $status, expected $wanted"
}
due() {
    # shellcheck disable=SC2059
    printf "$@" >due
}
usage() { sed '/^$/,$d' "$here/src/help/$1.txt"; }
: >in

# The first graph of document 01, then with s closed too early.
printf '\001\002\001m\001\001s\000\000\001b\000\000\000\000' >image
printf '\003\001m\035include s;import b{prefix b;}\001s\023import b{prefix b;}\001b\000' >bundle
printf '\003\001m\035include s;import b{prefix b;}\001s\013\nimport b{}\001b\000' >closed
due 'Nodes (3):\n  - m\n  - s\n  - b\n\nEdges (3):\n  - b before m\n  - s before m\n  - b before s\n'
expect 0 graph image bundle
due 'b\ns\nm\n'
expect 0 order image bundle
due '{"nodes":["m","s","b"],"edges":[[2,0],[1,0],[2,1]]}\n'
expect 0 graph image bundle --json
due '{"order":["b","s","m"]}\n'
expect 0 --json order image bundle
cat >due <<'X1'
refused 25: module m (set 1, entry 1): the text of s, line 2, column 11: an import is closed without prefix (scan refusal 7, byte 11)
    import b{}
              ^
expected prefix NAME; before the end of the block, found }
To do: write `prefix NAME;` inside the braces of the import
X1
expect 1 graph image closed
expect 1 order image closed
words='module m (set 1, entry 1): the text of s, line 2, column 11: an import is closed without prefix (scan refusal 7, byte 11)'
entry='"entry":1,"set":1,"import_only":false,"name":"m"'
clash='"expected":"prefix NAME; before the end of the block","found":"}","advice":"write `prefix NAME;` inside the braces of the import"'
scan='"scan":7,"keyword":"import","position":11,"line":2,"column":11,"text":"s"'
echo "{\"refused\":{\"number\":25,\"words\":\"$words\",$entry,$scan,$clash}}" >due
expect 1 order image --json closed
printf '\003\001m\012include z;\001s\000\001b\000' >unknown
words='module m (set 1, entry 1): the text of m includes \"z\", which is no submodule of a module'
advice='"advice":"list the submodule under its module in the library, or correct the name. Those of import-only modules do not count:'
advice="$advice list such a module as a module\""
echo "{\"refused\":{\"number\":27,\"words\":\"$words\",$entry,\"by\":\"include\",\"listed\":\"z\",\"text\":\"m\",$advice}}" >due
expect 1 graph image unknown --json
expect 1 graph --complete image unknown --json
due 'refused 21: the bundle breaks its form at byte 0\nexpected a bundle, found nothing\nTo do: this is empty: make it anew by `nuvaleta pack`\n'
expect 1 graph image /dev/null
clash='"expected":"a bundle","found":"nothing","advice":"this is empty: make it anew by `nuvaleta pack`"'
echo "{\"refused\":{\"number\":21,\"words\":\"the bundle breaks its form at byte 0\",\"place\":0,$clash}}" >due
expect 1 order image /dev/null --json

# One of the two from standard input.
cp bundle in
due 'b\ns\nm\n'
expect 0 order image -
due '0 faults, 0 warnings\n'
expect 0 check image -
cp image in
expect 0 check - bundle
due '{"nodes":["m","s","b"],"edges":[[2,0],[1,0],[2,1]]}\n'
expect 0 graph --json - bundle
for command in graph order check; do
    due "nuvaleta: one of the two alone can be standard input\n$(usage $command)\n"
    expect 2 "$command" - -
done

# What is given for an image or a bundle and is none.
echo '<yang-library xmlns="urn:ietf:params:xml:ns:yang:ietf-yang-library"/>' >library.xml
echo '{"ietf-yang-library:yang-library":{}}' >library.json
printf 'module m {\n}\n' >m.yang
both='which makes an image and a bundle of'
looks() { # NUMBER PLACE WHAT EXPECTED FOUND ADVICE
    printf 'refused %s: the %s breaks its form at byte %s\nexpected %s, found %s\nTo do: %s\n' "$1" "$3" "$2" "$4" "$5" "$6" >due
}
looks 20 0 image 'an image' 'an XML document' \
    "this looks like an XML document: run \`nuvaleta pack library FILE TEXTS IMAGE BUNDLE\`, $both a router's library and a folder of texts"
expect 1 order library.xml bundle
expect 1 graph library.xml bundle
looks 20 0 image 'an image' 'a JSON document' \
    "this looks like a JSON document: run \`nuvaleta pack library FILE TEXTS IMAGE BUNDLE\`, $both a router's library and a folder of texts"
expect 1 order library.json bundle
advice="this looks like a YANG text: run \`nuvaleta pack folder FOLDER IMAGE BUNDLE\`, $both a folder of texts"
looks 21 1 bundle 'a bundle' 'a YANG text' "$advice"
expect 1 order image m.yang
clash="\"expected\":\"a bundle\",\"found\":\"a YANG text\",\"advice\":\"$advice\""
echo "{\"refused\":{\"number\":21,\"words\":\"the bundle breaks its form at byte 1\",\"place\":1,$clash}}" >due
expect 1 texts --json m.yang
looks 20 2 image 'an image' 'a bundle' 'the two are swapped: give the image first, then the bundle'
expect 1 order bundle image
echo '1 fault, 0 warnings' >>due
expect 1 check bundle image
{
    printf '\001\001m\200\200\005'
    head -c 81920 /dev/zero | tr '\000' ' '
} >fat
printf '\001\001\001m\000\000\000\000' >one
cat >due <<'X1'
refused 20: the image has more than 65,536 bytes
expected an image, found a bundle
To do: the two are swapped: give the image first, then the bundle
X1
expect 1 order fat one
cp fat in
expect 1 graph - one
looks 21 1 bundle 'a bundle' 'an image' 'this looks like an image: give both files that `nuvaleta pack` wrote, the image first'
expect 1 order image image
expect 1 texts image

# Two modules that import each other, and one that lists itself as a deviation.
printf '\001\002\001m\000\000\000\001b\000\000\000\000' >pair
printf '\002\001m\023import b{prefix b;}\001b\023import m{prefix m;}' >texts
cat >due <<'X1'
refused 40: no order of registration: 2 schemas wait for each other in a ring
    m before b
    b before m
To do: in each line the second imports, includes, augments or deviates from the first: one of these has to go
X1
expect 1 order pair texts
advice='"advice":"in each line the second imports, includes, augments or deviates from the first: one of these has to go"'
ring="{\"number\":40,\"words\":\"no order of registration: 2 schemas wait for each other in a ring\",\"ring\":[\"m\",\"b\"],$advice}"
echo "{\"refused\":$ring}" >due
expect 1 order pair texts --json
echo "{\"faults\":[$ring],\"warnings\":[]}" >due
expect 1 check pair texts --json
printf '\001\001\001m\000\000\001\001m\000' >self
printf '\001\001m\000' >empty
cat >due <<'X1'
refused 40: no order of registration: a schema waits for itself
    m before m
To do: in each line the second imports, includes, augments or deviates from the first: one of these has to go
X1
expect 1 order self empty

# A module in two sets, with a submodule in the second alone: refused, and in order with complete nodes.
printf '\002\001\001m\000\000\000\000\001\001m\001\001s\000\000\000' >twice
printf '\002\001m\012include s;\001s\000' >included
words="a submodule is included which is no node, since its module was passed over: that module's name was a node already"
advice="the library has that module's name twice, and the submodules of the second one are passed over: draw the graph with --complete (in a program:"
advice="$advice graph_complete), or list the submodule where the name stands first"
printf 'refused 28: module m (set 1, entry 1): %s\nTo do: %s\n' "$words" "$advice" >due
expect 1 graph twice included
expect 1 order twice included
echo '1 fault, 0 warnings' >>due
expect 1 check twice included
printf 'refusal 28, of a module or import-only module of the library: %s\nTo do: %s\n' "$words" "$advice" >due
expect 0 explain 28
echo "{\"refused\":{\"number\":28,\"words\":\"module m (set 1, entry 1): $words\",$entry,\"advice\":\"$advice\"}}" >due
expect 1 order --json twice included
due 'Nodes (2):\n  - m\n  - s\n\nEdges (1):\n  - s before m\n'
expect 0 graph --complete twice included
due '{"nodes":["m","s"],"edges":[[1,0]]}\n'
expect 0 --json graph twice included --complete
due 's\nm\n'
expect 0 order --complete twice included
due '{"order":["s","m"]}\n'
expect 0 --complete order --json twice included
due '0 faults, 0 warnings\n'
expect 0 check --complete twice included
due '{"faults":[],"warnings":[]}\n'
expect 0 check --complete --json twice included
due 'b\ns\nm\n'
expect 0 order --complete image bundle

# All faults at once, and what each text says of itself.
printf '\003\001m\074import x{prefix x;}contact c;include z;import b\n {prefix b;}\001s\013\nimport b{}\001t\000' >faulty
cat >due <<'X1'
refused 26: module m (set 1, entry 1): the text of m imports "x", which is neither a module nor an import-only module
To do: add the module to the library, as an import-only module if it is not implemented, or correct the name. A submodule can be included only
refused 23: module b (set 1, entry 2): the bundle has no text under its name
To do: put its text into the bundle, or take it out of the library
warning: the text of m, line 1, column 30: include "z" is passed over: the scan ends at the word contact in line 1
warning: the text of m, line 1, column 40: import "b" is passed over: the scan ends at the word contact in line 1
2 faults, 2 warnings
X1
expect 1 check image faulty
words='module b (set 1, entry 2): the bundle has no text under its name'
advice='put its text into the bundle, or take it out of the library'
missing="{\"number\":23,\"words\":\"$words\",\"entry\":2,\"set\":1,\"import_only\":false,\"name\":\"b\",\"advice\":\"$advice\"}"
printf '\002\001m\026contact c;include\n"z";\001s\000' >missing
warning='"kind":"passed_over","line":1,"column":11,"words":"include \"z\" is passed over: the scan ends at the word contact in line 1"'
echo "{\"faults\":[$missing],\"warnings\":[{\"text\":\"m\",$warning}]}" >due
expect 1 check --json image missing
printf '\002\001m\054module m{contact c;augment /x:y{}include s;}\001s\012import b{}' >said
cat >due <<'X1'
m, 44 bytes
    name: m
    Imports (0):
    Includes (0):
    warning: line 1, column 20: it augments "/x:y", and no import that was read has the prefix "x"
    warning: line 1, column 34: include "s" is passed over: the scan ends at the word contact in line 1
s, 10 bytes
    refused 9: line 1, column 11: no module or submodule with a name
    refused 7: line 1, column 11: an import is closed without prefix
X1
expect 0 texts said
cp said in
expect 0 texts -
"$nuvaleta" texts --json said >out 2>err || wrong "texts --json said"
python3 - out <<'X1' || wrong "texts --json said"
import json, sys
m, s = json.load(open(sys.argv[1]))["texts"]
assert (m["name"], m["bytes"], m["metadata"]["name"], m["dependencies"]) == ("m", 44, "m", {"imports": [], "includes": []}), m
augments, passed = m["warnings"]
assert (augments["kind"], augments["line"], augments["column"]) == ("augments", 1, 20), m
assert (passed["kind"], passed["line"], passed["column"], sorted(passed)) == ("passed_over", 1, 34, ["column", "kind", "line", "words"]), m
assert (s["metadata"]["refused"]["number"], s["dependencies"]["refused"]["number"], s["warnings"]) == (9, 7, []), s
refused = s["dependencies"]["refused"]
assert (refused["keyword"], refused["position"], refused["line"], refused["column"], refused["found"]) == ("import", 10, 1, 11, "}"), s
X1

# One text, from a file with a blank in its path, another folder and standard input: as the proved programs print it.
mkdir 'a b'
for command in deps meta; do
    cp "$root/crates/$command/stdin" 'a b/x y.yang'
    cp "$root/crates/$command/stdin" in
    cp "$root/crates/$command/stdout" due
    expect 0 "$command" 'a b/x y.yang'
    expect 0 "$command" "$work/a b/x y.yang"
    expect 0 "$command" -
    expect 0 "$command" -- -
    expect 0 "$command" --whole -
done
due '{"name":"m-types","parent":"m","namespace":null,"prefix":"b","first_revision":"2023-11-02","newest_revision":"2024-05-01"}\n'
expect 0 meta - --json
cp "$root/crates/deps/stdin" in
due '{"imports":[{"name":"base","prefix":"b","revision":"2024-05-01"}],"includes":[{"name":"m-types","revision":null}]}\n'
expect 0 --json deps -
printf 'include "\\"\\\\\\n\\t\001/\177";' >in
due '{"imports":[],"includes":[{"name":"\\"\\\\\\n\\t\\u0001/\\u007f","revision":null}]}\n'
expect 0 deps --json -
{
    printf 'refused 9: standard input, line 1, column 23: no module or submodule with a name\n    include "\\"\\\\\\n\\t?/?";\n%26s^\n' ''
    echo 'expected module NAME { or submodule NAME {, found the end of the text'
    nouns='container, list, leaf, grouping, typedef, identity, augment, rpc or notification'
    echo "To do: write \`module NAME {\` or \`submodule NAME {\` before the first $nouns"
} >due
expect 1 meta -
printf 'module m {\n\timport b{}\n}\n' >early.yang
cat >due <<'X1'
refused 7: early.yang, line 2, column 12: an import is closed without prefix
     import b{}
               ^
expected prefix NAME; before the end of the block, found }
To do: write `prefix NAME;` inside the braces of the import
X1
expect 1 deps early.yang
clash='"expected":"prefix NAME; before the end of the block","found":"}","advice":"write `prefix NAME;` inside the braces of the import"'
echo "{\"refused\":{\"number\":7,\"words\":\"an import is closed without prefix\",\"keyword\":\"import\",\"position\":22,\"line\":2,\"column\":12,$clash}}" >due
expect 1 deps early.yang --json
printf 'module m { import a; }' >semicolon.yang
"$nuvaleta" deps semicolon.yang >out 2>err && wrong "deps semicolon.yang" || :
sed -n 4p err | grep -qx 'expected { after import a, found ;' || wrong "deps semicolon.yang"

# Accents: in strings and comments they are read and printed; elsewhere they are refused, and so is what is not UTF-8. Columns count characters.
printf 'module m { // \303\251\n  prefix "\303\274";\n  import "caf\303\251" { prefix \047\342\202\254\047; }\n}\n' >accents.yang
due 'Imports (1):\n  - caf\303\251 (prefix: \342\202\254)\n\nIncludes (0):\n'
expect 0 deps accents.yang
expect 0 deps --whole accents.yang
due '{"imports":[{"name":"caf\303\251","prefix":"\342\202\254","revision":null}],"includes":[]}\n'
expect 0 deps --json accents.yang
due 'name: m\nprefix: \303\274\n'
expect 0 meta accents.yang
printf 'module m {\n  /* \303\251\303\251 */ prefix \342\200\234m;\n}\n' >quotes.yang
advice='put what it belongs to into quotes, or write ASCII there: accents, typographic quotes and dashes, other blanks than the usual one, and a byte order'
advice="$advice mark at the beginning are the usual causes"
words='a byte above 127 outside of strings and comments'
{
    printf 'refused 3: quotes.yang, line 2, column 19: %s\n      /* \303\251\303\251 */ prefix \342\200\234m;\n%22s^\n' "$words" ''
    printf 'expected ASCII outside of strings and comments, found \342\200\234, byte 0xe2\nTo do: %s\n' "$advice"
} >due
expect 1 meta quotes.yang
expect 1 deps quotes.yang
expect 1 deps --whole quotes.yang
printf 'scan refusal 3, of a text: %s\nTo do: %s\n' "$words" "$advice" >due
expect 0 explain 3
printf 'module m {\n  contact "Zo\353";\n}\n' >latin.yang
advice='save the text as UTF-8: it may be written in ISO 8859-1, Windows-1252 or UTF-16, or be cut off inside a character'
cat >due <<X1
refused 12: latin.yang, line 2, column 14: the text is not UTF-8
      contact "Zo?";
                 ^
expected UTF-8, found byte 0xeb
To do: $advice
X1
expect 1 deps latin.yang
expect 1 meta --whole latin.yang
clash='"expected":"UTF-8","found":"byte 0xeb"'
echo "{\"refused\":{\"number\":12,\"words\":\"the text is not UTF-8\",\"position\":24,\"line\":2,\"column\":14,$clash,\"advice\":\"$advice\"}}" >due
expect 1 deps --json latin.yang
cat >due <<X1
scan refusal 12, at byte 24 of a text: the text is not UTF-8
latin.yang, line 2, column 14:
      contact "Zo?";
                 ^
To do: $advice
X1
expect 0 explain 12 --at 24 latin.yang

# A text that is cut off: it may be read as if it were whole, and is refused with --whole where that is seen.
printf 'module m {\n  prefix m;\n  revision 2024-05-01 {\n    description "The la' >cut.yang
due 'name: m\nprefix: m\nfirst revision: 2024-05-01\nnewest revision: 2024-05-01\n'
expect 0 meta cut.yang
words='the text ends inside a string, or inside a statement that is passed over'
advice='the text is cut off, or a quote, a ; or a } is missing: download it again, or complete it. A text without this refusal may be cut off too, where it'
advice="$advice is not seen: behind the word that ends the scan, in a comment between statements, or in the module's own block outside of strings"
clash='expected the end of the string or of the statement, found the end of the text'
told() { # WHERE LINE: a refusal of a text that ends with this line
    printf 'refused 11: %s: %s\n    %s\n    %*s^\n%s\nTo do: %s\n' "$1" "$words" "$2" "${#2}" '' "$clash" "$advice" >due
}
told 'cut.yang, line 4, column 24' '    description "The la'
expect 1 meta --whole cut.yang
expect 1 --whole meta cut.yang
place='"position":70,"line":4,"column":24'
clashes='"expected":"the end of the string or of the statement","found":"the end of the text"'
echo "{\"refused\":{\"number\":11,\"words\":\"$words\",$place,$clashes,\"advice\":\"$advice\"}}" >due
expect 1 meta cut.yang --json --whole
due 'Imports (0):\n\nIncludes (0):\n'
expect 0 deps cut.yang
expect 0 deps --whole cut.yang # the word description ends the scan
printf 'module m { namespace "urn:m' >in
expect 0 deps -
told 'standard input, line 1, column 28' 'module m { namespace "urn:m'
expect 1 deps --whole -
printf '\001\001m\033module m { namespace "urn:m' >half
due '{"order":["m"]}\n'
expect 0 order --json one half # a graph does not ask
printf 'scan refusal 11, of a text: %s\nTo do: %s\n' "$words" "$advice" >due
expect 0 explain 11
expect 0 explain 11 --keyword 0
printf 'scan refusal 11, at byte 70 of a text: %s\n%s:\n%8sdescription "The la\n%27s^\nTo do: %s\n' "$words" 'cut.yang, line 4, column 24' '' '' "$advice" >due
expect 0 explain 11 --at 70 cut.yang
head -c 1048577 /dev/zero >long.yang
due 'refused 1: long.yang: more than 1,048,576 bytes\nTo do: split the text: this is the most that is scanned\n'
expect 1 deps long.yang
due '{"refused":{"number":1,"words":"more than 1,048,576 bytes","advice":"split the text: this is the most that is scanned"}}\n'
expect 1 --json meta long.yang

# Numbers explained. From here on mostly by the binary itself, as the script calls it.
nuvaleta=$here/build/release/nuvaleta
due 'scan refusal 7, of a text: an import is closed without prefix\nTo do: write `prefix NAME;` inside the braces of the import\n'
expect 0 explain 7
expect 0 explain 7 --keyword 0
due 'scan refusal 7, at byte 22 of a text: an import is closed without prefix\nTo do: write `prefix NAME;` inside the braces of the import\n'
expect 0 explain 7 --keyword 8 --at 22
cat >due <<'X1'
scan refusal 7, at byte 22 of a text: an import is closed without prefix
early.yang, line 2, column 12:
     import b{}
               ^
To do: write `prefix NAME;` inside the braces of the import
X1
expect 0 explain 7 --at 22 early.yang
due 'scan refusal 8, of a text: the text ends inside the block of an include\nTo do: the text is cut off, or a } is missing: complete it\n'
expect 0 explain 8 --keyword include
expect 0 explain 8 --keyword 9
words='"words":"no value after prefix"'
advice='"advice":"write a name or a closed string behind the keyword. A keyword counts wherever it stands as a word of its own,'
advice="$advice also as the name of something else\""
echo "{\"number\":4,$words,$advice,\"keyword\":\"prefix\",\"position\":23,\"line\":3,\"column\":1}" >due
expect 0 explain --json 4 --keyword prefix --at 23 early.yang
advice='make it anew by `nuvaleta pack`. The place is the start of the first wrong number or name, or the first byte too many'
{
    printf 'refusal 20: the image breaks its form at byte 9\nimage, from byte 1 on:\n'
    printf '    02 01 6d 01 01 73 00 00 01 62 00 00 00 00\n%28s^^\nTo do: %s\n' '' "$advice"
} >due
expect 0 explain 20 --at 9 image
echo "{\"number\":20,\"words\":\"the image breaks its form at byte 9\",\"advice\":\"$advice\",\"place\":9}" >due
expect 0 explain --json 20 --at 9 image
expect 0 explain --json 20 --at 9
"$nuvaleta" explain 42 --at 3 | grep -q '^refusal 42: the list is wrong at place 3, counted from 0$' || wrong "explain 42 --at 3"
for number in 0 1 2 3 4 5 6 7 8 9 10 11 12 20 21 22 23 24 25 26 27 28 29 30 31 40 41 42 43; do
    "$nuvaleta" explain $number >out 2>err || wrong "explain $number"
    sed -n 1p out | grep -q "refusal ${number}[:,] .\|^0: no refusal" && sed -n 2p out | grep -q '^To do: .' || wrong "explain $number"
done
for number in 13 19 32 39 44 4294967303 99999999999999999999; do
    due "nuvaleta: no call answers $number: the numbers are 0 to 12, 20 to 31 and 40 to 43\n$(usage explain)\n"
    expect 2 explain $number
done

# Every help page fits a terminal of 80 columns.
awk 'length > 80 { print FILENAME ", line " FNR ": " length " columns"; wide = 1 } END { exit wide }' "$here"/src/help/*.txt >out || wrong "help"
[ -s "$here/src/help/texts.txt" ] || wrong "help texts"
for page in "$here"/src/help/*.txt; do
    name=$(basename "$page" .txt)
    [ "$name" = nuvaleta ] || "$nuvaleta" "$name" --help | cmp -s - "$page" || wrong "$name --help"
done

# Help, from the command and, in a clone where nothing is built, from the script alone.
mkdir -p fresh/host/rust/src
cp -R "$here/src/help" fresh/host/rust/src/
cp -R "$root/host/pack" fresh/host/
cp "$root/nuvaleta" fresh/
for nuvaleta in "$root/nuvaleta" "$here/build/release/nuvaleta" fresh/nuvaleta; do
    for command in deps meta graph order explain; do
        cp "$here/src/help/$command.txt" due
        expect 0 "$command" --help
        expect 0 help "$command"
    done
    cp "$here/src/help/nuvaleta.txt" due
    expect 0 help
    expect 0 --help
    "$nuvaleta" pack --help >out 2>err && [ -s out ] && [ ! -s err ] || wrong "pack --help"
done
fresh/nuvaleta pack show image >out 2>err && grep -q 'module m' out || wrong "pack show"
nuvaleta=$here/build/release/nuvaleta
due "nuvaleta: packing is done by host/pack/pack, which the script nuvaleta of the repository calls\n$(usage pack)\n"
expect 2 pack folder a b c
ln -s "$root/nuvaleta" link
./link --version >due
expect 0 --version
nuvaleta=./link
due 'b\ns\nm\n'
expect 0 order image bundle

# What is not understood, or cannot be read or written.
for nuvaleta in "$root/nuvaleta" "$here/build/release/nuvaleta"; do
    due "$(usage nuvaleta)\n"
    expect 2
    expect 2 --json
    expect 2 help order graph
    expect 2 help pack graph
    due 'nuvaleta: none: No such file or directory (os error 2)\n'
    expect 2 deps none
    for command in grph nuvaleta; do
        due "nuvaleta: $command is no command\n$(usage nuvaleta)\n"
        expect 2 "$command" image bundle
        expect 2 help "$command"
    done
done
due "nuvaleta: --jsn is no option\n$(usage nuvaleta)\n"
expect 2 deps --jsn early.yang
due "nuvaleta: deps has no --all\n$(usage deps)\n"
expect 2 deps --all early.yang
for command in deps meta texts explain; do
    due "nuvaleta: $command has no --complete\n$(usage $command)\n"
    expect 2 "$command" --complete early.yang
done
for command in graph order check texts explain; do
    due "nuvaleta: $command has no --whole\n$(usage $command)\n"
    expect 2 "$command" --whole image bundle
done
due "nuvaleta: --at needs a word behind it\n$(usage nuvaleta)\n"
expect 2 explain 7 --at
for number in seven '' +7 -; do
    due "nuvaleta: $number is no number\n$(usage explain)\n"
    expect 2 explain "$number"
    expect 2 explain 7 --at "$number"
done
due "nuvaleta: no call answers the place 4294967296\n$(usage explain)\n"
expect 2 explain 7 --at 4294967296
due "nuvaleta: imports is no keyword's word or number\n$(usage explain)\n"
expect 2 explain 4 --keyword imports
due "nuvaleta: a FILE needs --at\n$(usage explain)\n"
expect 2 explain 7 early.yang
due "nuvaleta: 40 has no place\n$(usage explain)\n"
expect 2 explain 40 --at 1 early.yang
expect 2 explain 40 --at 1
due "nuvaleta: the place of 42 is one in a list, not in a FILE\n$(usage explain)\n"
expect 2 explain 42 --at 1 early.yang
due "nuvaleta: keyword and place beside 25 are those of the scan's number: explain that one\n$(usage explain)\n"
expect 2 explain 25 --at 1
expect 2 explain 25 --keyword import
for pair in '8 module' '10 revision' '3 import' '11 import' '12 import' '23 import' '9 module' '4 yang-version' '5 belongs-to'; do
    due "nuvaleta: ${pair% *} does not come with the keyword ${pair#* }\n$(usage explain)\n"
    expect 2 explain "${pair% *}" --keyword "${pair#* }"
done
due 'nuvaleta: early.yang: there is no byte 26, it has 25\n'
expect 2 explain 7 --at 26 early.yang
for command in deps meta texts graph order check explain; do
    due "$(usage $command)\n"
    expect 2 "$command"
    expect 2 "$command" image bundle texts
done
due "$(usage order)\n"
expect 2 order --into x image bundle
expect 2 order --complete --into x image bundle
expect 2 order --all image bundle
expect 2 order --seconds 1 image bundle
for seconds in 0 x -1 86401 1.5 ''; do
    due "nuvaleta: --seconds takes a number from 1 to 86400, not $seconds\n$(usage order)\n"
    expect 2 order --all . --seconds "$seconds"
done
due 'nuvaleta: none: No such file or directory (os error 2)\n'
expect 2 graph image none
expect 2 --json order none bundle
expect 2 check image none
expect 2 texts none
due 'nuvaleta: a b: Is a directory (os error 21): run `nuvaleta pack folder FOLDER IMAGE BUNDLE`\n'
expect 2 order 'a b' bundle
expect 2 texts 'a b'
due 'nuvaleta: standard output: No space left on device (os error 28)\n'
status=0
"$nuvaleta" order image bundle >/dev/full 2>err || status=$?
[ "$status" = 2 ] && cmp -s err due || wrong "to a full device: status $status"
{
    sleep 0.1
    status=0
    "$nuvaleta" graph image bundle 2>err || status=$?
    echo "$status" >status
} | :
[ "$(cat status)" = 0 ] && [ ! -s err ] || wrong "into a closed pipe"

# The build script says so where the archive is missing, since what the linker says of it helps nobody.
rustc --edition 2021 -o link_rs "$root/host/archive/link.rs"
warnings() {
    CARGO_MANIFEST_DIR="$work/fresh/host/rust" CARGO_CFG_TARGET_ARCH=x86_64 ./link_rs | grep -c '^cargo:warning=no archive yet: host/build makes it$'
}
[ "$(warnings)" = 1 ] || wrong "no warning without an archive"
mkdir -p fresh/target/staticlib
: >fresh/target/staticlib/libnuvaleta.a
[ "$(warnings)" = 0 ] || wrong "a warning with an archive"

[ "$fails" = 0 ] || exit 1
# shellcheck disable=SC2046
"$here/test_real.py" $("$here/../vectors/real.sh")
echo "rust: $(awk '/^test result: ok/ { n += $4 } END { print n }' tested) tests pass, the command prints and ends as it should"
