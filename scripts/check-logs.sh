#!/bin/bash
# Holds the stored logs to their list and ./logcheck to their answers, and what it answers to questions about them to the second checker. It
# prints a line for each failure, and `N passed, M failed` at the end. With `--make` it only makes the logs of logs/list.txt anew (never the
# answers, which are worked out by hand).
. "$(dirname "$0")/checks.sh"

# The row of the table in logs/README.md for an entry of the list, but for what it shows.
row_of() { # NAME ENTRY
    local answer history="\`$2\`"
    answer=$(sed '2,$s/^/, /; 2s/, /: /' "logs/$1.answer" | tr -d '\n')
    [ -n "$2" ] || history='(empty)'
    echo "| \`$1\` | $history | \`$answer\` |"
}

# A log is what its entry says, and the program gives its answer for the file, for standard input and for the history.
check_entry() { # NAME ENTRY
    local file=logs/$1.log answer=logs/$1.answer history
    log_of "$2" >"$room/log"
    check "$file is not what logs/list.txt says" cmp "$file" "$room/log"
    check "$1 does not stand in the table of logs/README.md as in the list and its answer" grep -qF -- "$(row_of "$1" "$2")" logs/README.md
    answers "./logcheck $file: another answer than $answer" "$answer" ./logcheck "$file"
    answers "./logcheck <$file: another answer than $answer" "$answer" ./logcheck <"$file"
    if history=$(history_of "$2"); then
        answers "./logcheck --text with the history of $1: another answer than $answer" "$answer" ./logcheck --text "$history"
    fi
}

# The questions about every log, held to the second checker, which says what is asked.
check_questions() {
    local file question answer asked=0
    while IFS=$'\t' read -r file question answer <&3; do
        echo "$answer" >"$room/wanted"
        # shellcheck disable=SC2086
        answers "./logcheck $question $file: not $answer" "$room/wanted" ./logcheck $question "$file"
        asked=$((asked + 1))
    done 3< <(CARGO_TARGET_DIR=target/rust cargo run --release --offline --quiet --manifest-path second/Cargo.toml --bin questions -- logs/*.log)
    check 'the second checker has fewer than 400 questions about the logs' [ "$asked" -ge 400 ]
}

# Every file of the folder belongs to the list.
check_folder() {
    local file name
    for file in logs/*.log logs/*.answer; do
        name=${file#logs/}
        check "$file is not in logs/list.txt" grep -q "^${name%.*}$(printf '\t')" logs/list.txt
    done
}

# Builds both programs, where that is needed.
if [ "${1-}" != --make ] && ! { ./logcheck --text '' && ./logcheck --edge 0 0 --text ''; } >/dev/null; then
    echo 'failed: ./logcheck does not run'
    echo '0 passed, 1 failed'
    exit 1
fi
while IFS=$'\t' read -r name entry <&3; do
    case $name in \#*) continue ;; esac
    if [ "${1-}" = --make ]; then
        log_of "$entry" >"logs/$name.log"
    else
        check_entry "$name" "$entry"
    fi
done 3<logs/list.txt
[ "${1-}" != --make ] || exit 0
check_folder
check_questions
counts
