#!/bin/sh
# Makes an archive of a small proved library by the static library over it, links it into a C program and runs that, and sees when it is kept;
# then makes one that counts what is reached, and those for other processors, and looks at them.
set -eu
here=$(cd "$(dirname "$0")" && pwd)
"$here/../need" gcc libc6-dev binutils
work=$(mktemp -d)
trap 'rm -rf "$work"' EXIT
cd "$work"
mkdir -p crates/probe/src crates/probe_c/src
printf 'probe:\nprobe_c staticlib: probe\n' >crates.txt
cat >crates/probe/src/lib.rt <<'X1'
#![tactic(auto)]

ghost use Rattle.std.specs.Prelude.{◌≡◌, ◌+◌};

pub fn probe_next(x: u8) -> u32
    ensures { result ≡ x + 1 }
{
    let wide = x as u32;
    wide + 1
}
X1
cat >crates/probe_c/src/lib.rt <<'X1'
#![tactic(auto)]

ghost use Rattle.std.specs.Prelude.{◌≡◌, ◌+◌};

#[unsafe(no_mangle)]
pub extern "C" fn probe_next(x: u8) -> u32
    ensures { result ≡ x + 1 }
{
    probe::probe_next(x)
}
X1
cat >main.c <<'X1'
#include <stdint.h>
#include <stdio.h>
uint32_t probe_next(uint8_t x);
int main(void) { printf("%u %u\n", (unsigned)probe_next(0), (unsigned)probe_next(255)); return 0; }
X1
archive=$("$here/archive.sh" probe)
gcc -o main main.c "$archive"
said=$(./main)
[ "$said" = "1 256" ] || { echo "archive: the C program says '$said'" >&2; exit 1; }

# Kept while neither a source nor the archive has changed: then rt, here one that fails, is not asked.
mkdir none
printf '#!/bin/sh\nexit 1\n' >none/rt
chmod +x none/rt
kept() { PATH=$work/none:$PATH "$here/archive.sh" --kept probe 2>/dev/null; }
[ "$(kept)" = "$archive" ] || { echo "archive: not kept" >&2; exit 1; }
echo >>crates/probe/src/lib.rt
! kept >/dev/null || { echo "archive: kept, though a source has changed" >&2; exit 1; }
"$here/archive.sh" probe >/dev/null
echo >>"$archive"
! kept >/dev/null || { echo "archive: kept, though it has changed itself" >&2; exit 1; }

"$here/archive.sh" probe >/dev/null
objdump -h "$("$here/archive.sh" --covered probe)" | grep -q __sancov_cntrs || { echo "archive: --covered counts nothing" >&2; exit 1; }
[ "$(kept)" = "$archive" ] || { echo "archive: not kept beside one that counts" >&2; exit 1; }

others=
for other in aarch64 riscv64; do
    [ "$(uname -m)" != $other ] || continue
    readelf -h "$("$here/archive.sh" probe $other)" | grep -qi "machine:.*$other\|machine:.*risc" || { echo "archive: not one for $other" >&2; exit 1; }
    others="$others and $other"
done
echo "archive: links and runs here, is kept while nothing changes; made with counters and for${others# and} too"
