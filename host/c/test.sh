#!/bin/sh
# test.sh ARCHIVE: compiles the programs here against include/nuvaleta.h, links them with libnuvaleta.a and runs them; compiles the header
# alone as C and C++.
set -eu
here=$(cd "$(dirname "$0")" && pwd)
"$here/../need" gcc g++ libc6-dev
mkdir -p "$here/build"
include=$here/../../include
strict="-Wall -Wextra -Werror -pedantic"
for program in test names stack scans; do
    # shellcheck disable=SC2086
    gcc -std=c99 $strict -O2 -I "$include" -o "$here/build/$program" "$here/$program.c" "$1" -pthread
done
for language in c:c99 c:c11 c++:c++98 c++:c++17; do
    # shellcheck disable=SC2086
    echo '#include "nuvaleta.h"' | g++ -x "${language%%:*}" -std="${language#*:}" $strict -I "$include" -fsyntax-only -
done
"$here/build/test"
"$here/build/names"
"$here/build/stack" >"$here/build/stack.said"
"$here/build/scans"
echo "c: every number that the header names holds; alone it is C99, C11, C++98 and C++17; no call takes more stack than it says"
