# shellcheck shell=bash
# Runs a program so that it ends when its launcher does. The launchers `ice` and `ice-unproved` read this file and call
# heed_signals once and run_program; the program's standard input, output and error are theirs.
#
# - A signal TERM, INT or HUP to the launcher ends the program, and the launcher with the status that a shell gives: 143, 130
#   or 129.
# - Where the launcher is killed outright, as by the time-out of a caller in Python, nothing of it runs any more. So a watcher
#   reads from a pipe that the launcher holds open, and ends the program when that closes before the launcher said so. It
#   removes the files and folders of `leftover` then.

child=
before=
leftover=()
heed_signals() {
    trap 'end_both 1' HUP
    trap 'end_both 2' INT
    trap 'end_both 15' TERM
}

# Ends the program and the launcher, at a signal of this number. A program that was begun just now isn't named by `child` yet.
end_both() {
    trap '' HUP INT TERM
    [ -z "$before" ] || [ "$!" = "$before" ] || child=$!
    [ -z "$child" ] || { kill "$child" && wait_ended; } 2>/dev/null
    { echo ended >&6; } 2>/dev/null
    ! declare -F leave_output >/dev/null || leave_output
    exit "$((128 + $1))"
}

# Waits until the program has ended, for up to ten seconds. A `wait` inside a trap that broke off another may wait for ever.
wait_ended() {
    local turn state
    for ((turn = 0; turn < 500; turn++)); do
        kill -0 "$child" || return 0
        ! read -r state <"/proc/$child/stat" || [[ ${state##*) } != Z* ]] || return 0
        read -r -t 0.02 <> <(:)
    done
}

# Reads the program's number, and then a line when it has ended by itself.
watch_program() {
    local watched
    trap '' HUP INT TERM
    read -r watched
    if ! read -r; then
        [ -z "$watched" ] || kill "$watched"
        [ "${#leftover[@]}" = 0 ] || rm -rf "${leftover[@]}"
    fi
}

# Becomes the program, once the watcher has its number: it is told before the program begins, so that none goes on unwatched.
become() {
    echo "$BASHPID" >&6
    exec "$@" <&5 4<&- 5<&- 6>&- 7>&- 9<&-
}

# Runs a program with its words to its end, and sets `status`. Descriptor 6 is the watcher's, 4, 7 and 9 are those
# of launch/output.bash, and 5 is standard input, which the shell would take from a program that it waits for in this way.
run_program() {
    exec 6> >(exec 4<&- 7>&- 9<&- && watch_program >/dev/null 2>&1)
    { exec 5<&0; } 2>/dev/null || exec 5</dev/null
    before=$!
    become "$@" &
    child=$!
    before=
    exec 5<&-
    wait "$child"
    # shellcheck disable=SC2034 # the launchers read it
    status=$?
    child=
    echo ended >&6
    exec 6>&-
}
