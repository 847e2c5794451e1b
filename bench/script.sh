#!/bin/sh
# Writes a script of N futures (100000 if not given): `bench/script.sh KIND N`. By KIND, with the lines for each future:
#   event (3), oneshot (3), oneshot-broadcast (3), state-broadcast (3): made, polled, told by one call for all, polled again
#   cancel (3): waits for an event, made, polled and cancelled in a drawn order
#   timer (3.1): deadlines in a drawn order, polled, every tenth cancelled, the others told by a hundred checks, polled again
#   mutex (4), semaphore (4), unfair (4): locks of a held mutex, acquires of a fair or an unfair semaphore, each served by the one before it
#   reused (5): of a hundred acquires that wait the oldest is served, cancelled and made again under its label, N times
#   channel (6): pairs of `try-send` and `try-receive`, then sends on a full channel of two, each told by a `try-receive`
#   pool (3): jobs submitted, started and finished
kind=${1:-event}
awk -v kind="$kind" -v n="${2:-100000}" '
function drawn(place) { return (place * 40021 + 7919) % n }
function each(line, rest,   i) { for (i = 1; i <= n; i++) print line i (rest == "" ? "" : " " (rest == "own" ? i : rest)) }
function told(opening, make, rest, tell) {
    print opening
    each(make " w", rest); each("poll w", "own")
    print tell
    each("poll w", "own")
}
function served(opening, make, rest, first, next_one,   i) {
    print opening
    print first
    for (i = 1; i <= n; i++) { print make " w" i rest; print "poll w" i " " i }
    for (i = 1; i <= n; i++) { print next_one; print "poll w" i " 1" }
}
function acquires(opening,   i) {
    print opening
    for (i = 1; i <= n; i++) { print "acquire w" i " 1"; print "poll w" i " " i }
    print "release 1"
    for (i = 1; i <= n; i++) { print "poll w" i " 1"; print "give-back 1" }
}
BEGIN {
    if (kind == "event") told("event reset", "wait", "", "set")
    else if (kind == "oneshot" || kind == "oneshot-broadcast") told(kind, "receive", "", "send 7")
    else if (kind == "state-broadcast") told(kind, "receive", "0", "send 7")
    else if (kind == "mutex") served("mutex fair 0", "lock", "", "try-lock", "unlock 1")
    else if (kind == "semaphore") acquires("semaphore fair 0")
    else if (kind == "unfair") acquires("semaphore unfair 0")
    else if (kind == "cancel") {
        print "event reset"
        for (i = 0; i < n; i++) { print "wait w" i; print "poll w" i " " i }
        for (i = 0; i < n; i++) { place = drawn(place); print "cancel w" place }
    } else if (kind == "reused") {
        print "semaphore fair 0"
        for (i = 0; i < 100; i++) { print "acquire w" i " 1"; print "poll w" i " " i }
        print "release 1"
        for (i = 0; i < n; i++) {
            label = "w" i % 100
            print "poll " label " 1"; print "cancel " label; print "acquire " label " 1"; print "poll " label " " i; print "give-back 1"
        }
    } else if (kind == "timer") {
        print "timer"
        for (i = 1; i <= n; i++) { place = drawn(place); print "deadline w" i " " place + 1; print "poll w" i " 0 " i }
        for (i = 1; i <= n; i += 10) print "cancel w" i
        for (i = 1; i <= 100; i++) print "check " int(n * i / 100)
        for (i = 1; i <= n; i++) if (i % 10 != 1) print "poll w" i " " n " 1"
    } else if (kind == "channel") {
        print "channel array 2"
        for (i = 1; i <= n; i++) { print "try-send " i; print "try-receive" }
        print "try-send 1"; print "try-send 2"
        for (i = 1; i <= n; i++) { print "send w" i " " i; print "poll w" i " " i }
        for (i = 1; i <= n; i++) { print "try-receive"; print "poll w" i " 1" }
    } else if (kind == "pool") {
        print "pool 2 2"
        for (i = 1; i <= n; i++) { print "submit " i; print "start"; print "finish" }
    } else exit 2
}'
