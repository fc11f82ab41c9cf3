#!/usr/bin/env bash
# prove.sh SAY CRATES [WORD..]: has rt prove the static library in this folder and write its archive, and gives rt these words. CRATES are the crates that it
# depends on and itself, one a line, as rt proves them: one behind the other. All that rt says goes into the file SAY, and where something fails on standard
# error. Where that is a terminal, each crate that is proved is told there, and below them the time so far. Whatever ends this ends rt too, and all that rt has
# begun.
set -euo pipefail
say=$1
mapfile -t crates <<<"$2"
shift 2
all=${#crates[@]}
declare -A place=()
for crate in "${crates[@]}"; do place[$crate]=$((${#place[@]} + 1)); done
live='' clear=''
[ ! -t 2 ] || [ "${TERM:-dumb}" = dumb ] || { live=yes && clear=$'\r\033[K'; }

# rt begins proofs in the background, where an interrupt does not reach them. So it has a process group of its own, which is ended as one.
job=
# shellcheck disable=SC2317
stop() { # STATUS
    trap '' INT TERM HUP
    trap - EXIT
    printf '%s' "$clear" >&2
    if [ -n "$job" ]; then
        kill -TERM -- "-$job" 2>/dev/null || kill -TERM "$job" 2>/dev/null || :
        wait "$job" || :
        for _ in {1..50}; do
            kill -0 -- "-$job" 2>/dev/null || break
            sleep 0.1
        done
    fi
    exit "$1"
}
trap 'stop 130' INT TERM HUP
trap 'stop 1' EXIT

lasting() { # SECONDS
    if [ "$1" -lt 60 ]; then echo "$1 s"; else echo "$(($1 / 60)) min $(($1 % 60)) s"; fi
}
# Where a crate is proved, so are all before it: rt says nothing of one that is as it was when it was proved last.
proved=0 last=0
tell() { # CRATE
    local at=${place[$1]:-0}
    [ "$at" -gt "$proved" ] || return 0
    proved=$at
    [ ! -t 2 ] || printf '%s%s of %s, %s, %s\n' "$clear" "$proved" "$all" "$1" "$(lasting $((SECONDS - last)))" >&2
    last=$SECONDS
}
shown=
count() { # at most once a second
    [ -n "$live" ] && [ "$shown" != "$SECONDS" ] || return 0
    shown=$SECONDS
    printf '%s%s of %s proved, %s so far' "$clear" "$proved" "$all" "$(lasting "$SECONDS")" >&2
}

: >"$say"
SECONDS=0 part='' checked=''
exec 3< <(exec setsid rt lib "$@" 2>&1)
job=$!
while count; do
    if IFS= read -r -t 1 -u 3 line; then
        line=$part$line part=''
        echo "$line" >>"$say"
        # What was checked last is what is proved.
        if [[ $line =~ ^crate\ ([A-Za-z0-9_]+):\ modules\  ]]; then
            checked=${BASH_REMATCH[1]}
        elif [[ $line == 'logic=proved '* ]]; then
            tell "$checked"
        fi
    else
        [ "$?" -gt 128 ] || break # the end, and not the second that it waits for a line
        part+=$line
    fi
done
status=0
wait "$job" || status=$?
job=
printf '%s' "$clear" >&2
if [ "$status" != 0 ]; then
    cat "$say" >&2
    status=1
fi
trap - EXIT
exit "$status"
