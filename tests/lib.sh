# shellcheck shell=bash
# What the tests of the commands share: a room of their own, and `try`.
# DESK is the command that is tried: this checkout's, unless it is set.
top=$(cd "$(dirname "${BASH_SOURCE[0]}")/.." && pwd -P)
export DESK=${DESK:-$top/desk}
room=$(mktemp -d)
trap 'rm -rf "$room"' EXIT
exec </dev/null
tried=0 bad=0

wrong() { # TITLE WORDS..
    bad=$((bad + 1))
    printf '%s: NOT SO: %s: %s\n' "$(basename "$0")" "$1" "${*:2}" >&2
}

# Runs a command and holds its status, its standard output and its standard error to what is expected: OUT is a file,
# SAID a pattern that a line matches; where one is empty nothing is to be written there.
try() { # TITLE STATUS OUT SAID COMMAND..
    local title=$1 status=$2 out=${3:-/dev/null} said=$4 got=0
    shift 4
    tried=$((tried + 1))
    timeout 120 "$@" >"$room/out" 2>"$room/err" || got=$?
    local found
    found=$(head -n 3 "$room/err")
    if [ "$got" -ne "$status" ]; then
        wrong "$title" "status $got and not $status; it said: $found"
    elif ! cmp -s "$out" "$room/out"; then
        wrong "$title" "it wrote $(wc -l <"$room/out") lines, the first '$(head -n 1 "$room/out")'"
    elif [ -z "$said" ]; then
        [ -z "$found" ] || wrong "$title" "it said: $found"
    elif ! grep -Eq -- "$said" "$room/err"; then
        wrong "$title" "it said '$found' and nothing like '$said'"
    elif grep -Eqv '^(desk|compare|bench): ' "$room/err"; then
        wrong "$title" "a line does not say who says it: $found"
    fi
}

# Holds a fact that a test of the shell shows.
hold() { # TITLE TEST..
    local title=$1
    shift
    tried=$((tried + 1))
    "$@" || wrong "$title" "$*"
}

finish() {
    echo "$(basename "$0"): $tried tried, $bad not as they should be"
    [ "$bad" -eq 0 ]
}
