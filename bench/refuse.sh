#!/bin/sh
# Refuses the built program each request for memory in turn: `bench/refuse.sh SCRIPT..`, or of each primitive that bench/script.sh knows
# a script with 20 futures. In the Nth run of a script its Nth request is refused, until a run makes no Nth. Each refused run must end with
# status 3 and whole lines of the true output, or answer the script all the same. Prints for each script how many runs did which.
# `rt run` proves and builds the program first, if it is not up to date; PROGRAM names another one.
set -eu
here=$(cd "$(dirname "$0")" && pwd)
program=${PROGRAM:-$here/../crates/schedule/out/schedule}
[ -n "${PROGRAM:-}" ] || (cd "$here/../crates/schedule" && rt run < stdin > /dev/null 2>&1)
work=$(mktemp -d)
trap 'rm -rf "$work"' EXIT
cc -O2 -shared -fPIC -o "$work/refuse.so" "$here/refuse.c" -ldl

# Whether the output is whole lines at the beginning of the true one.
is_front() {
    head -n "$(wc -l < "$work/output")" "$work/true" | cmp -s - "$work/output"
}

# Refuses one script each request in turn.
refuse() {
    "$program" < "$1" > "$work/true"
    refused=0 answered=0 number=1
    while :; do
        status=0
        REFUSE=$number LD_PRELOAD="$work/refuse.so" "$program" < "$1" > "$work/output" 2> "$work/errors" || status=$?
        grep -q '^refused$' "$work/errors" || break
        if [ "$status" = 3 ] && grep -q '^schedule: no memory$' "$work/errors" && is_front; then
            refused=$((refused + 1))
        elif [ "$status" = 0 ] && cmp -s "$work/output" "$work/true"; then
            answered=$((answered + 1))
        else
            echo "$2: request $number refused: status $status, or lines that are not those of the true output"
            exit 1
        fi
        number=$((number + 1))
    done
    echo "$2: $refused runs were refused, $answered were answered all the same"
}

if [ $# -gt 0 ]; then
    for script; do refuse "$script" "$script"; done
else
    for name in event timer semaphore channel pool; do
        "$here/script.sh" "$name" 20 > "$work/script"
        refuse "$work/script" "$name"
    done
fi
