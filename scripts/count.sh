# shellcheck shell=bash
# Counts checks, for the scripts that end in `N passed, M failed`. To be sourced; gives
#   count WHAT STATUS         counts one check, and prints a line where its status is not 0
#   check WHAT COMMAND ..     counts one command, and shows what it said where it failed
#   counts                    prints the last line; its status is 0 exactly where some passed and none failed
#   $room                     a folder for files, which goes with the script; the last `check` has left there, as `said`, what its command said

passed=0
failed=0
room=$(mktemp -d) || exit 1
trap 'rm -rf "$room"' EXIT

count() { # WHAT STATUS
    if [ "$2" -eq 0 ]; then
        passed=$((passed + 1))
    else
        failed=$((failed + 1))
        echo "failed: $1"
    fi
}

check() { # WHAT COMMAND ..
    local what=$1 status
    shift
    "$@" >"$room/said" 2>&1
    status=$?
    [ "$status" -eq 0 ] || sed 's/^/    /' "$room/said" # a count in it is not to be taken for this script's
    count "$what" "$status"
}

counts() {
    echo "$passed passed, $failed failed"
    [ "$failed" -eq 0 ] && [ "$passed" -gt 0 ]
}
