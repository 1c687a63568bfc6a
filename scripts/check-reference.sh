#!/bin/bash
# Holds the examples of docs/LOGS.md, and those of README.md, to the checker. It reads them from the pages:
#   rows      a cell that is an answer, as `refused 6 2` or `cycle 2: 1 1, 2 3`, stands behind the cell of its example; where the first
#             cell of the row is a number, it is the refusal's. An example is a history, (empty), or one of
#                 repeat 3 c0 c1    a history that has the operation so many times, and then the rest
#                 bytes 3 0 0       the bytes of a log
#                 call ..           a call of the library, where log is the 4 bytes of c0 and answer is a buffer
#                 --source 1 c0     a question, or --edge 0 1, and its history
#   blocks    a line `    $ ./logcheck --text 'HISTORY'`, and below it what is printed; a question, as `--source 4` or `--edge 1 2`, may
#             stand before --text
#   dump      rows of a record's number, its 4 bytes in hexadecimal, its operation, its first byte's place, and its copy number or none
# What is printed must be the same, and the status that of the answer. The calls want crates/clib/out/libclib.a. It prints a line for each
# failure, and `N passed, M failed` at the end.
. "$(dirname "$0")/checks.sh"
. scripts/x86-64.sh
. scripts/x86-c.sh

page=docs/LOGS.md

# The examples of a page: a line each, of its place, the row's first cell (or -), the example and the answer on one line. An example of a
# question is the question, and then its history.
examples() { # PAGE
    awk -v OFS='\t' '
        function end_block() { if (at) print FILENAME ", line " at, "-", "`" example "`", "`" answer "`"; at = 0 }
        /^    \$ / {
            end_block()
            at = FNR
            answer = ""
            split($0, part, "\047")
            sub(/^    \$ \.\/logcheck /, "", part[1])
            sub(/--text $/, "", part[1])
            example = part[1] part[2]
            next
        }
        /^    / && at { answer = answer (answer == "" ? "" : answer ~ /:/ ? ", " : ": ") substr($0, 5); next }
        { end_block() }
        /^\|/ {
            cells = split($0, cell, / *\| */)
            for (i = 3; i < cells; i++)
                if (cell[i] ~ /^`(serial|cycle|refused) [0-9]/) print FILENAME ", line " FNR, cell[2], cell[i - 1], cell[i]
        }
        END { end_block() }' "$1"
}

# The rows of the dump: record, bytes, operation, first byte, copy number.
dump_rows() {
    awk -v FS=' *\\| *' -v OFS='\t' '$3 ~ /^`[0-9a-f ]+`$/ && length($3) == 13 { gsub(/`/, ""); print $2, $3, $4, $5, $6 }' "$page"
}

# What a call of the library answers. Its status is that of the answer, as the command's.
called() { # CALL
    cat >"$room/call.c" <<END_OF_C
#include <stdio.h>
#include "fruscalenta.h"
int main(void) {
    uint8_t log[] = {3, 0, 0, 0}, answer[FRUSCALENTA_ROOM];
    (void)log, (void)answer;
    printf("refused %d %d\n", (int)$1.number, (int)$1.place);
    return 2;
}
END_OF_C
    x86_cc -std=c99 -Iinclude "$room/call.c" "$x86_archive" -o "$room/call" && x86_run "$room/call"
}

# What an example answers.
answer_to() { # EXAMPLE
    local history option i j
    case $1 in
    '(empty)') ./logcheck --text '' ;;
    call\ *) called "${1#call }" ;;
    --source\ *)
        read -r option i history <<<"$1"
        ./logcheck "$option" "$i" --text "$history"
        ;;
    --edge\ *)
        read -r option i j history <<<"$1"
        ./logcheck "$option" "$i" "$j" --text "$history"
        ;;
    *)
        if history=$(history_of "$1"); then
            ./logcheck --text "$history"
        else
            log_of "$1" >"$room/log"
            ./logcheck "$room/log"
        fi
        ;;
    esac
}

check_example() { # PLACE FIRST-CELL EXAMPLE ANSWER
    local example=${3#\`} answer=${4#\`} what="$1: $3"
    example=${example%\`}
    answer=${answer%\`}
    if [[ "\`$example\`" != "$3" || "\`$answer\`" != "$4" || $example == *\`* ]]; then
        count "$what is no example, or $4 no answer, in backquotes" 1
        return
    fi
    if [[ $2 =~ ^[0-9]+$ && $answer != "refused $2 "* ]]; then
        count "$what stands in the row of $2, and its answer is $answer" 1
        return
    fi
    sed 's/: /\n/; s/, /\n/g' <<<"$answer" >"$room/wanted"
    answers "$what: not $answer" "$room/wanted" answer_to "$example"
}

# The dump's bytes are the log of its operations, whichever way the program gets them, and its numbers are true.
check_dump() {
    local record bytes operation from copy wanted history='' k=0
    : >"$room/dump"
    while IFS=$'\t' read -r record bytes operation from copy; do
        history+="$operation "
        # shellcheck disable=SC2059
        printf "\\x${bytes// /\\x}" >>"$room/dump"
        wanted=none
        [ "${bytes:0:2}" = 03 ] || wanted=$((16#${bytes:6:2} * 16 + 16#${bytes:9:2}))
        check "$page, record $record of the dump: not $k, from $((4 * k)), copy $wanted" \
            [ "$record $from $copy" = "$k $((4 * k)) $wanted" ]
        k=$((k + 1))
    done < <(dump_rows)
    check "$page has no dump" [ "$k" -gt 0 ]
    check "$page, the dump: its history has other bytes" cmp -s "$room/dump" <(scripts/log-from-text.sh "$history")
    check "$page, the dump: its bytes and its history have different answers" \
        [ "$(./logcheck "$room/dump" 2>&1)" = "$(./logcheck --text "$history" 2>&1)" ]
}

# Nothing was overlooked, every refusal has its row, and every reason an answer that shows it.
check_whole() {
    local number reason call="./logcheck (--source [0-9]+ |--edge [0-9]+ [0-9]+ )?--text '[^']*'"
    check "$page: a line with \$ in front that is no ./logcheck --text, with a question or without" \
        [ "$(grep -c '^    \$ ' "$page")" -eq "$(grep -cE "^    \\\$ $call\$" "$page")" ]
    # shellcheck disable=SC2016
    check "$page: an answer that stands in no row of an example" \
        [ "$(grep -o '`\(serial\|cycle\|refused\) [0-9][^`]*`' "$page" | wc -l)" -eq "$(grep -vc "$(printf '\t-\t')" "$room/examples")" ]
    check "$page: no block with an example" grep -q "$(printf '\t-\t')" "$room/examples"
    for number in {1..10}; do
        check "$page: no row for number $number" grep -q "$(printf '\t%s\t.*\t`refused %s ' "$number" "$number")" "$room/examples"
    done
    for reason in 1 2 3; do
        check "$page: no cycle that shows reason $reason" grep -q "\`cycle.*[0-9] ${reason}[,\`]" "$room/examples"
    done
}

check './logcheck does not run' ./logcheck logs/p01.log # builds it, where that is needed
check './logcheck --edge does not run' ./logcheck --edge 0 0 logs/p01.log # the same for the program that answers questions
check 'the tools for x86-64 are not there' x86_setup
check 'there is no library to link' x86_library
if [ "$failed" -gt 0 ]; then
    counts
    exit 1
fi
examples "$page" >"$room/examples"
examples README.md >"$room/readme"
check 'README.md has no example' [ -s "$room/readme" ]
while IFS=$'\t' read -r place first example answer <&3; do
    check_example "$place" "$first" "$example" "$answer"
done 3< <(cat "$room/readme" "$room/examples")
check_dump
check_whole
counts
