#!/bin/sh
# Runs the tape program on standard input: ./tape < examples/first.tape. Proves and builds first what is not current, one build at a time.
# Status: 0 all of the tape was run, 1 it ended with answer 40 or its opening was refused, 2 wrong arguments, 3 reading, writing or the build failed.
set -eu
here=$(CDPATH= cd "$(dirname "$(readlink -f "$0")")" && pwd)
program=$here/crates/placement_tape/out/placement_tape
checked=$here/target/tape.checked
lock=$here/target/tape.lock
log=$here/target/tape.log

usage() {
    cat <<'USAGE'
tape: accepted: no argument, --dump or --help
The tape is standard input; each command's line goes to standard output.
--dump prints the final tables and marks behind the last line.
Status: 0 all of the tape was run, 1 it ended with answer 40 or its opening was refused, 2 wrong arguments, 3 reading or writing failed.
USAGE
}

fail() {
    echo "tape: $1" >&2
    exit 3
}

# `rt run` proves, builds and runs it, here on an empty tape. It leaves the program as it is where nothing of it changed, so the time of the last build is kept beside it
is_current() {
    [ -x "$program" ] && [ -e "$checked" ] && [ -z "$(find "$here/crates" "$here/crates.txt" -name out -prune -o -newer "$checked" -type f -print | head -n 1)" ]
}

# The crates that the program stands on, itself included, in the order of crates.txt: from bottom to top.
needed() {
    awk '
        { sub(/#.*/, "") }
        match($0, /^[a-z_0-9]+/) {
            name = substr($0, 1, RLENGTH); rest = $0; sub(/^[^:]*:/, "", rest)
            order[++count] = name; uses[name] = rest
        }
        END {
            wanted["placement_tape"] = 1
            for (i = count; i > 0; i--)
                if (wanted[order[i]]) { n = split(uses[order[i]], below, " "); for (j = 1; j <= n; j++) wanted[below[j]] = 1 }
            for (i = 1; i <= count; i++) if (wanted[order[i]]) print order[i]
        }' "$here/crates.txt"
}

# The crate that the build is at, by its last line that names one: ", crate 15 of 32: table".
place() {
    name=$(sed -n 's/^rt: chose --jobs [0-9]* for \([a-z_0-9]*\)$/\1/p; s/^crate \([a-z_0-9]*\): .*/\1/p' "$log" | tail -n 1)
    [ -n "$name" ] || return 0
    needed | awk -v name="$name" '$0 == name { at = NR } END { if (at) printf ", crate %d of %d: %s", at, NR, name }'
}

# Waits for the build, and says where it is: on one line at a terminal, else a line a minute.
watch() {
    seconds=0
    while kill -0 "$1" 2>/dev/null; do
        if [ -t 2 ]; then
            printf '\r\033[Ktape: proving and building%s' "$(place)" >&2
        elif [ $((seconds % 60)) -eq 0 ]; then
            echo "tape: proving and building$(place)" >&2
        fi
        sleep 1
        seconds=$((seconds + 1))
    done
    [ ! -t 2 ] || printf '\r\033[K' >&2
}

build() {
    command -v rt > /dev/null || fail "the program is not built, or not from what stands here, and rt is not on the path: it proves and builds it (README, Two commands)"
    touch "$checked.next"
    : > "$log"
    (cd "$here/crates/placement_tape" && exec rt run < /dev/null > "$log" 2>&1) &
    builder=$!
    watch "$builder"
    # an empty tape ends with status 1: the opening is cut short
    status=0
    wait "$builder" || status=$?
    builder=
    if [ "$status" -gt 1 ] || [ ! -x "$program" ] || ! grep -q '^rt: running out/placement_tape' "$log"; then
        cat "$log" >&2
        fail "the program could not be proved and built"
    fi
    mv "$checked.next" "$checked"
}

# No build is begun where another runs. A lock whose owner has ended is taken over.
take_lock() {
    until mkdir "$lock" 2>/dev/null; do
        owner=$(cat "$lock/owner" 2>/dev/null || true)
        if [ -n "$owner" ] && ! kill -0 "$owner" 2>/dev/null; then
            rm -rf "$lock"
        else
            [ -n "${told:-}" ] || echo "tape: another build runs: waiting" >&2
            told=1
            sleep 1
        fi
    done
    echo $$ > "$lock/owner"
}

release() {
    [ -z "${builder:-}" ] || kill "$builder" 2>/dev/null || true
    rm -rf "$lock"
}

case $# in
    0) ;;
    1)
        case $1 in
            --help) usage; exit 0 ;;
            --dump) ;;
            *) usage >&2; exit 2 ;;
        esac ;;
    *) usage >&2; exit 2 ;;
esac

if ! is_current; then
    mkdir -p "$here/target"
    take_lock
    trap release EXIT
    trap 'exit 3' INT TERM HUP
    is_current || build
    release
    trap - EXIT INT TERM HUP
fi
exec "$program" "$@"
