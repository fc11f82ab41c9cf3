#!/bin/sh
# fuzz.sh SECONDS [TARGET..]: fuzzes the port by libFuzzer, each target (fuzz.c) for so many seconds, two at a time, each from its seeds on, and prints
# what each did and how much of the port all of them reached together. Status 1 if anything was wrong: its input is then in build/fuzz/TARGET.
# fuzz.sh planted: sees that the fuzzer finds a fault at a refusal deep in a graph's walk within a minute, from no seeds at all.
set -eu
here=$(cd "$(dirname "$0")" && pwd)
seconds=${1:?usage: fuzz.sh SECONDS [TARGET..], or fuzz.sh planted}
shift
[ $# -gt 0 ] || set -- scans finds made nested wide library order
"$here/../need" clang-14 libclang-rt-14-dev libc6-dev binutils python3
archive=$(cd "$here" && "$here/../archive/archive.sh" --kept --covered nuvaleta)
objdump -h "$archive" | grep -q __sancov_cntrs || { echo "fuzz: the archive counts nothing" >&2; exit 1; }
build=$here/build/fuzz
mkdir -p "$build"
# Without libFuzzer's own flag, so that what is counted is the port alone.
compile() { clang-14 -std=c11 -Wall -Wextra -Werror -O2 -I "$here/../../include" -c -o "$build/$1.o" "$here/$2.c" ${3:+"$3"}; }
for part in form judge lent make calls fuzz reached; do compile "$part" "$part"; done
compile planted calls -DPLANTED
link() { # PROGRAM CALLS WORDS..
    program=$1 calls=$2
    shift 2
    clang-14 "$@" -o "$build/$program" "$build/form.o" "$build/judge.o" "$build/lent.o" "$build/make.o" "$build/$calls.o" "$build/fuzz.o" "$archive"
}
link fuzz calls -fsanitize=fuzzer
link planted planted -fsanitize=fuzzer
link reached calls -no-pie "$build/reached.o"

# Seeds beside those that fuzz.c makes: the beginnings of real modules; a library of the twelve shortest, whose imports it does not have.
real_seeds() { # TARGET FOLDER
    case $1 in
    scans)
        for file in $("$here/../vectors/real.sh"); do
            { printf '\0' && head -c 3000 "$file"; } >"$2/real-${file##*/}"
        done
        ;;
    library)
        rm -rf "$build/few" && mkdir "$build/few"
        for file in $("$here/../vectors/real.sh" | xargs ls -Sr | sed -n 1,12p); do cp "$file" "$build/few/"; done
        "$here/../../nuvaleta" pack folder --lenient "$build/few" "$build/few.image" "$build/few.bundle" >"$build/few.say" 2>&1 ||
            { cat "$build/few.say" >&2; return 1; }
        size=$(wc -c <"$build/few.image")
        printf "\\0\\$(printf %03o $((size % 256)))\\$(printf %03o $((size / 256)))" | cat - "$build/few.image" "$build/few.bundle" >"$2/real"
        ;;
    esac
}

longest() { case $1 in scans | library) echo 6000 ;; wide) echo 64 ;; *) echo 3000 ;; esac; }

run() { # TARGET
    own=$build/$1
    rm -rf "$own"
    mkdir -p "$own/seeds" "$own/corpus"
    "$build/fuzz" "--target=$1" "--seeds=$own/seeds"
    real_seeds "$1" "$own/seeds"
    status=0
    "$build/fuzz" "--target=$1" -max_total_time="$seconds" -timeout=60 -max_len="$(longest "$1")" -dict="$here/yang.dict" -print_final_stats=1 \
        -artifact_prefix="$own/" "$own/corpus" "$own/seeds" >"$own/said" 2>"$own/log" || status=$?
    echo "$status" >"$own/status"
}

if [ "$seconds" = planted ]; then
    rm -rf "$build/deep" && mkdir -p "$build/deep"
    began=$(date +%s)
    status=0
    "$build/planted" --target=made --planted=15 -max_total_time=60 -max_len=600 -seed=1 -artifact_prefix="$build/deep/" \
        >"$build/deep/said" 2>&1 || status=$?
    { [ "$status" != 0 ] && grep -q "nuvaleta_graph: signal" "$build/deep/said"; } || { echo "fuzz: the planted fault is not found" >&2; exit 1; }
    echo "fuzz: the planted fault is found after $(($(date +%s) - began)) s"
    exit 0
fi

stat() { sed -n "s/^stat::$2: *//p" "$build/$1/log"; }
last() { sed -n "s/.* $2: \([^ ]*\).*/\1/p" "$build/$1/log" | tail -n 1; }
row() { # TARGET
    own=$build/$1
    all=$(sed -n 's/.*Loaded 1 modules *(\([0-9]*\) .*/\1/p' "$own/log")
    crashes=$(find "$own" -maxdepth 1 \( -name 'crash-*' -o -name 'oom-*' -o -name 'timeout-*' -o -name 'leak-*' \) | wc -l)
    faults=$(grep -c '^attack: .*signal' "$own/log" || :)
    echo "| $1 | $(stat "$1" number_of_executed_units) | $(stat "$1" average_exec_per_sec) | $(last "$1" cov) of $all | $(last "$1" corp)" \
        "| $crashes | $faults | $(stat "$1" slowest_unit_time_sec) s |"
    [ "$(cat "$own/status")" = 0 ] && [ "$crashes" = 0 ]
}

began=$(date +%s)
for target in "$@"; do
    run "$target" &
    if [ -n "${other:-}" ]; then wait; other=; else other=$target; fi
done
wait
echo "| target | executions | a second | counters | corpus | crashes | faults | slowest unit |"
echo "|---|---|---|---|---|---|---|---|"
failed=
for target in "$@"; do row "$target" || failed="$failed $target"; done
for target in "$@"; do cat "$build/$target/said"; done
for target in "$@"; do
    echo "--target=$target"
    find "$build/$target/corpus" "$build/$target/seeds" -type f
done | "$build/reached" >"$build/reached.said" 2>&1 || { tail -n 3 "$build/reached.said" >&2; failed="$failed reached"; }
grep '^reached' "$build/reached.said"
echo "fuzz: $(($(date +%s) - began)) s, $(clang-14 --version | sed -n 1p)"
[ -z "$failed" ] || { echo "fuzz: failed:$failed" >&2; exit 1; }
