# shellcheck shell=sh
# One at a time: `rt` has who comes second in a crate wait, but tells no ./desk for whom; and ./test takes from out/ the
# programs that its `rt ci` built there. For ./desk, ./test and ./bench. The lock is file 9, and ends when that is closed,
# by whoever has it or by its end; `rt` called by hand does not ask for it.
one_at_a_time() { # WHO FOLDER [TEST]: where the test holds meanwhile, the wait is over without the lock
    mkdir -p "$2/built" && exec 9>>"$2/built/lock" || return
    taken=0
    flock -n 9 || taken=$?
    case $taken in
    0) ;;
    1)
        holder=$(cat "$2/built/holder" 2>/dev/null)
        echo "$1: waiting for ${holder:-another}, which is proving in this folder" >&2
        until flock -w 1 9; do
            ! ${3:-false} || return 0
        done
        ;;
    *)
        echo "$1: there can be no lock on $2/built/lock ('flock', of util-linux, ended with $taken)" >&2
        return 1
        ;;
    esac
    echo "./$1 (process $$)" >"$2/built/holder"
}
