# What the scripts that check something share. To be sourced first; goes to the repository's folder, counts by scripts/count.sh, and gives
#   run COMMAND ..                 runs a command, and keeps what it prints in the room, as out and err, and its status as `status`
#   answers WHAT FILE COMMAND ..   counts one that must print just what is in FILE, nothing on standard error, and have the status of that answer
#   hints WHAT FILE TEXT COMMAND   the same, with one line on standard error that has TEXT in it
#   refuses WHAT TEXT COMMAND ..   counts one that must print nothing but one line on standard error, with TEXT in it, and have the status 3
#   judged WHAT STATUS             counts a command that was run, and shows what it printed where STATUS is not 0
#   has TEXT FILE, lacks ..        whether a text stands in a file
#   history_of, log_of ENTRY       the history, or the bytes, of an entry: a history; `repeat` with a number, an operation that stands so many
#                                  times, and what follows it; or `bytes` and the bytes that no notation can write
# shellcheck shell=bash
set -u
unset CDPATH
export LC_ALL=C.UTF-8
cd "$(dirname "$(readlink -f "${BASH_SOURCE[0]}")")/.." || exit 1
. scripts/count.sh

has() { grep -qF -- "$1" "$2"; } # TEXT FILE
lacks() { ! has "$@"; }

run() { # COMMAND ..
    "$@" >"$room/out" 2>"$room/err"
    status=$?
}

# What was printed is shown only in part, and indented: it may be long, and a count in it is not this script's.
judged() { # WHAT STATUS
    [ "$2" -eq 0 ] || head -q -n 5 "$room/out" "$room/err" | cut -c 1-200 | sed 's/^/    /'
    count "$1 (its status is $status)" "$2"
}

# The status that goes with an answer.
status_of() { # ANSWER-FILE
    case $(head -n 1 "$1") in
    serial\ * | none | [0-9]*) echo 0 ;; # a verdict, or a question that is answered
    cycle\ *) echo 1 ;;
    refused\ *) echo 2 ;;
    esac
}

# One line of the command's own, with a text in it, is all that stands on standard error.
one_line() { # TEXT
    [ "$(wc -l <"$room/err")" -eq 1 ] && grep -q '^logcheck: ' "$room/err" && has "$1" "$room/err"
}

answers() { # WHAT ANSWER-FILE COMMAND ..
    run "${@:3}"
    [ "$status" = "$(status_of "$2")" ] && [ ! -s "$room/err" ] && cmp -s "$2" "$room/out"
    judged "$1" $?
}

hints() { # WHAT ANSWER-FILE TEXT COMMAND ..
    run "${@:4}"
    [ "$status" = "$(status_of "$2")" ] && one_line "$3" && cmp -s "$2" "$room/out"
    judged "$1" $?
}

refuses() { # WHAT TEXT COMMAND ..
    run "${@:3}"
    [ "$status" -eq 3 ] && [ ! -s "$room/out" ] && one_line "$2"
    judged "$1" $?
}

# The history of an entry, written out; fails where no notation can write it.
history_of() { # ENTRY
    local times operation rest
    case $1 in
    bytes\ *) return 1 ;;
    repeat\ *)
        read -r _ times operation rest <<<"$1"
        printf "%.0s$operation " $(seq "$times")
        printf '%s' "$rest"
        ;;
    *) printf '%s' "$1" ;;
    esac
}

# The log of an entry, as bytes.
log_of() { # ENTRY
    local history escapes
    if history=$(history_of "$1"); then
        scripts/log-from-text.sh "$history"
    else
        # shellcheck disable=SC2086
        printf -v escapes '\\%03o' ${1#bytes }
        # shellcheck disable=SC2059
        printf "$escapes"
    fi
}
