# One build at a time in this folder. To be sourced, with the repository's folder as the working folder; gives
#   take_lock NAME               waits until no other build goes on here; where it has to wait, NAME says so on standard error
#   free_lock                    lets the next one build
#   under_lock NAME COMMAND ..   runs a command with the lock, and has its status
# The lock is flock's, on the folder itself. It leaves nothing behind, rt's own locks are on other folders, and it ends with
# the last process that has it open. Those that a command starts under it have it open as well: where a ./logcheck is killed and its rt
# goes on, the next one waits for that rt. So nothing that outlives its build may be started under the lock.
# shellcheck shell=bash
unset build_lock # a caller's

# Goes on without a lock where the file system has none.
take_lock() { # NAME
    local busy=0
    { exec {build_lock}<.; } 2>/dev/null || return 0
    flock -n "$build_lock" 2>/dev/null || busy=$?
    [ "$busy" -eq 1 ] || return 0
    echo "$1: another build goes on in this folder; waiting for its end" >&2
    flock "$build_lock" 2>/dev/null || :
}

# Whoever waits goes on at once.
free_lock() {
    [ -n "${build_lock-}" ] || return 0
    exec {build_lock}<&-
    unset build_lock
}

# For a command that does not know of the lock, as rt.
under_lock() { # NAME COMMAND ..
    local status=0
    take_lock "$1"
    shift
    "$@" || status=$?
    free_lock
    return "$status"
}
