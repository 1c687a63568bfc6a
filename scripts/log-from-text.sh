#!/bin/bash
# Prints the log, as bytes, of a history in the book's notation: `scripts/log-from-text.sh HISTORY`, or with the history on standard input.
# scripts/history.pl has the notation. Where there is no history, it prints nothing but a line on standard error, and ends with status 3.
set -u
unset "${!PERL@}" # a caller's, for programs of his own

fail() { # MESSAGE
    printf 'log-from-text: %s\n' "$1" >&2
    exit 3
}

[ -e /dev/fd/0 ] || [ $# -gt 0 ] || fail 'standard input is closed'
[ -e /dev/fd/1 ] || fail 'standard output is closed'
escapes=$("$(dirname "$(readlink -f -- "$0")")/history.pl" "$@" 2>/dev/null) || fail "${escapes:-perl does not run here}"
# shellcheck disable=SC2059
printf "$escapes" 2>/dev/null || fail 'standard output cannot be written'
