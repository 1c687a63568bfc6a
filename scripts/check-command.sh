#!/bin/bash
# Tries ./logcheck on questions, and on calls that are wrong, odd or unlucky: each has one line that says what is wrong, or the right answer,
# and the status that goes with it. It prints a line for each failure, and `N passed, M failed` at the end. What a build has to do with is
# in scripts/check-build.sh. No check asks for a time; `timeout` only ends a call that would never end.
. "$(dirname "$0")/checks.sh"
here=$PWD
too_long=logs/records-4097.answer
p2='w0[xA] w0[xB] w0[yC] c0 r1[yC] w1[xA] c1 r2[xB] w2[yC] c2' # logs/p02.log
mkfifo "$room/pipe"

# ---- callers, for the checks below

without_input() { timeout 60 "$@" <&-; }
without_output() { "$@" >&-; }
without_errors() { "$@" 2>&-; }
without_signal() (
    trap '' PIPE
    exec "$@"
)
into_full() { "$@" >/dev/full; }
in_folder() { # FOLDER COMMAND ..
    local folder=$1
    shift
    (cd "$folder" && "$@")
}

# Standard output is a pipe that nobody reads any more. A subshell, since bash keeps what it is to open again.
without_reader() ( # COMMAND ..
    exec 3<>"$room/pipe" 4>"$room/pipe" 3<&-
    exec "$@" >&4
)

without_error_reader() ( # COMMAND ..
    exec 3<>"$room/pipe" 4>"$room/pipe" 3<&-
    exec "$@" 2>&4
)

# Often, since it was a matter of luck.
read_first_lines() {
    local _
    for _ in {1..40}; do ./logcheck --help | head -n 1; done
}

# A history that comes byte by byte, so that it is cut at each of its places.
byte_by_byte() { # HISTORY
    perl -e '$| = 1; for (split //, shift) { print; select undef, undef, undef, 0.002 }' "$1" | ./logcheck --text
}

# The text again and again, without an end, for a history.
endless() { # TEXT [FIRST]
    { printf '%s' "${2-}" && yes "$1" | tr -d '\n'; } 2>/dev/null | timeout 60 ./logcheck --text
}

# A text from a writer that then neither goes on nor ends.
from_slow_writer() { # TEXT COMMAND ..
    { printf '%s' "$1" >&3 && timeout 60 "${@:2}" <"$room/pipe" 3>&-; } 3<>"$room/pipe"
}

# Standard input can be read for 8 bytes, and then no more: it is perl's own memory, up to the end of its stack.
from_half_readable() { # COMMAND ..
    perl -e '
        open my $memory, "<", "/proc/$$/mem" or die;
        open my $maps, "<", "/proc/$$/maps" or die;
        my ($end) = map { /-(\w+) .*\[stack\]/ ? hex $1 : () } <$maps>;
        sysseek $memory, $end - 8, 0 or die;
        my $child = fork // die;
        if ($child == 0) { open STDIN, "<&", $memory or die; exec @ARGV or die }
        waitpid $child, 0;
        exit $? >> 8' "$@"
}

# A log from a pipe, byte by byte.
from_pipe() { # FILE COMMAND ..
    perl -e '$| = 1; open my $log, "<", shift or die; while (read $log, my $byte, 1) { print $byte; select undef, undef, undef, 0.002 }' "$1" |
        "${@:2}"
}

repeat() { # TIMES TEXT
    yes "$2" 2>/dev/null | head -n "$1" | tr -d '\n'
}

# A command that must print this one line, and have its status.
tells() { # WHAT ANSWER COMMAND ..
    echo "$2" >"$room/told"
    answers "$1" "$room/told" "${@:3}"
}

# ---- questions, whose answers are worked out by hand from the rules

check_sources() {
    local own='w0[xA] c0 r1[xA] w1[xA] r1[xA] c1' k
    tells 'the source of a read' '0 2' ./logcheck --source 4 logs/p02.log
    tells 'the source of another read' '0 1' ./logcheck --source 7 logs/p02.log
    tells 'the source of the first record, a write' none ./logcheck --source 0 logs/p02.log
    tells 'the source of the last record, a commit' none ./logcheck --source 9 logs/p02.log
    tells 'the source of a record at the end' 'refused 10 0' ./logcheck --source 10 logs/p02.log
    tells 'the source of a record of no records' 'refused 10 0' ./logcheck --source 0 --text ''
    tells 'a source before an own write' '0 0' ./logcheck --source 2 --text "$own"
    tells 'a source that is an own write' '1 3' ./logcheck --source 4 --text "$own"
    for k in 0 1 2 65535; do
        tells "the source of record $k of a refused log" 'refused 7 0' ./logcheck --source "$k" logs/p07.log
    done
    { repeat 4093 'w0[xA] ' && echo 'w5[xA] r0[xA] c0 c5'; } >"$room/text" # one record too many
    tells 'a source in a log that is too long' 'refused 1 0' ./logcheck --source 0 --text <"$room/text"
    { repeat 4092 'w0[xA] ' && echo 'w5[xA] r0[xA] c0 c5'; } >"$room/text"
    tells 'a source in the longest log' '5 4092' ./logcheck --source 4093 --text <"$room/text"
    tells 'the last record of the longest log' none ./logcheck --source 4095 --text <"$room/text"
    tells 'a record past the longest log' 'refused 10 0' ./logcheck --source 4096 --text <"$room/text"
}

check_edges() {
    tells 'an edge by a conflict' 1 ./logcheck --edge 1 2 logs/p02.log
    tells 'an edge by the write order' 2 ./logcheck --edge 5 3 logs/p09.log
    tells 'an edge by a read before' 3 ./logcheck --edge 2 1 logs/p02.log
    tells 'no edge, where there is one the other way' 0 ./logcheck --edge 3 5 logs/p09.log
    tells 'no edge from a transaction to itself' 0 ./logcheck --edge 1 1 logs/p02.log
    tells 'no edge to a transaction that is not in the log' 0 ./logcheck --edge 0 63 logs/p02.log
    tells 'an edge to a transaction above 63' 'refused 10 0' ./logcheck --edge 0 64 logs/p02.log
    tells 'an edge from a transaction above 63' 'refused 10 0' ./logcheck --edge 64 0 logs/p02.log
    tells 'an edge from a transaction whose low byte is 1' 'refused 10 0' ./logcheck --edge 257 2 logs/p02.log
    tells 'an edge to a transaction whose low byte is 2' 'refused 10 0' ./logcheck --edge 1 258 logs/p02.log
    tells 'an edge of a refused log' 'refused 7 0' ./logcheck --edge 0 1 logs/p07.log
    tells 'an edge above 63 of a refused log' 'refused 7 0' ./logcheck --edge 64 64 logs/p07.log
}

# A question takes a log in every way that a verdict does, and --text stands on either side of it.
check_ways_to_ask() {
    echo "$p2" >"$room/text"
    cp logs/p02.log "$room/-p02.log"
    tells 'a question on standard input' '0 2' ./logcheck --source 4 <logs/p02.log
    tells 'a question on standard input, by name' 3 ./logcheck --edge 2 1 - <logs/p02.log
    tells 'a question on a pipe' '0 2' from_pipe logs/p02.log ./logcheck --source 4
    tells 'a question on a file that is a pipe' '0 2' ./logcheck --source 4 <(cat logs/p02.log)
    tells 'a question, another folder, and a name with a dash' '0 1' in_folder "$room" "$here/logcheck" --source 7 -- -p02.log
    tells 'a question on standard input, after --' '0 1' ./logcheck --source 7 -- <logs/p02.log
    tells 'a question and then a history' '0 2' ./logcheck --source 4 --text "$p2"
    tells 'a history for which a question follows' '0 2' ./logcheck --text --source 4 "$p2"
    tells 'an edge and then a history' 3 ./logcheck --edge 2 1 --text "$p2"
    tells 'a history for which an edge follows' 3 ./logcheck --text --edge 2 1 "$p2"
    tells 'a question and a history on standard input' '0 2' ./logcheck --source 4 --text <"$room/text"
    tells 'a history on standard input for which a question follows' '0 2' ./logcheck --text --source 4 <"$room/text"
    tells 'a question and a history on standard input, by name' '0 2' ./logcheck --text --source 4 - <"$room/text"
    tells 'a question by sh' '0 2' sh ./logcheck --source 4 logs/p02.log
    tells 'a question, and a file of 20,000 bytes' 'refused 1 0' ./logcheck --source 4 <(head -c 20000 /dev/zero)
    tells 'a question, and 16,384 bytes' 'refused 4 0' ./logcheck --source 4 <(head -c 16384 /dev/zero)
    tells 'a question, and zero bytes without an end' 'refused 1 0' timeout 60 ./logcheck --source 4 /dev/zero
    tells 'a question, and a writer that waits' 'refused 1 0' from_slow_writer "$(repeat 16385 c)" ./logcheck --source 4
    tells 'a question, bytes enough, and no signal for a pipe' 'refused 1 0' without_signal timeout 60 ./logcheck --edge 1 2 /dev/zero
    cp logs/h1.log "$room/--source"
    answers 'a file that has the name of a question' "$here/logs/h1.answer" in_folder "$room" "$here/logcheck" -- --source
}

# Any number of digits, which are never taken for octal ones, nor counted from 0 on again.
check_numbers() {
    local k
    tells 'a zero in front' none ./logcheck --source 08 logs/p02.log
    tells 'zeros in front' '0 2' ./logcheck --source 0000000000000000000000000000004 logs/p02.log
    tells 'zeros in front of an edge' 3 ./logcheck --edge 002 0001 logs/p02.log
    tells 'zeros alone' none ./logcheck --source 000 logs/p02.log
    for k in 010 256 260 09999 65535 65536 65540 99999 100004 4294967300 9223372036854775808 18446744073709551620; do
        tells "record $k" 'refused 10 0' ./logcheck --source "$k" logs/p02.log
        tells "an edge to $k" 'refused 10 0' ./logcheck --edge 1 "0${k}0" logs/p02.log
        tells "an edge from $k" 'refused 10 0' ./logcheck --edge "${k}0" 1 logs/p02.log
    done
    tells '100,000 zeros in front' '0 2' timeout 60 ./logcheck --source "$(repeat 100000 0)4" logs/p02.log
    tells '100,000 digits' 'refused 10 0' timeout 60 ./logcheck --edge "$(repeat 100000 9)" 1 logs/p02.log
}

check_wrong_questions() {
    local k
    for k in x -1 +1 1.0 0x1 '1 2' ' 1' '' $'1\n' ١ 1e3 4x; do
        refuses "record $k" "--source wants the number of a record, counted from 0, and " ./logcheck --source "$k" logs/p02.log
        refuses "an edge from $k" "--edge wants the numbers of two transactions, and " ./logcheck --edge "$k" 1 logs/p02.log
        refuses "an edge to $k" "--edge wants the numbers of two transactions, and " ./logcheck --edge 1 "$k" logs/p02.log
    done
    refuses 'a word that is no number' "and 'x' is none (see --help)" ./logcheck --source x logs/p02.log
    refuses 'a history for a number' "and '$p2' is none" ./logcheck --text --source "$p2"
    refuses 'no number of a record' 'a number is missing: --source wants the number of a record' ./logcheck --source
    refuses 'no number of a record of a history' 'a number is missing: --source wants' ./logcheck --text --source
    refuses 'no number of a transaction' 'a number is missing: --edge wants the numbers of two transactions' ./logcheck --edge
    refuses 'one number of a transaction' 'a number is missing: --edge wants' ./logcheck --edge 1
    refuses 'a file for a number' "a number is missing before 'logs/p02.log': --source wants" ./logcheck --source logs/p02.log
    refuses 'a file for the second number' "a number is missing before 'logs/p02.log': --edge wants" ./logcheck --edge 1 logs/p02.log
    refuses 'standard input for a number' "a number is missing before '-': --source wants" ./logcheck --source - <logs/p02.log
    refuses '--text for a number' "a number is missing before '--text': --source wants" ./logcheck --source --text "$p2"
    refuses 'two questions' 'one question at a time' ./logcheck --source 4 --edge 1 2 logs/p02.log
    refuses 'the same question twice' 'one question at a time' ./logcheck --source 4 --source 4 logs/p02.log
    refuses 'two questions on a history' 'one question at a time' ./logcheck --edge 1 2 --text --source 4 "$p2"
    refuses 'a question and two files' 'too many arguments: one FILE' ./logcheck --source 4 logs/p01.log logs/p02.log
    refuses 'a question and two histories' 'a history is one, in quotes' ./logcheck --source 4 --text c0 c1
    refuses '--text twice, before a question' '--text stands twice' ./logcheck --text --text --source 4 c0
    refuses '--text twice, behind a question' '--text stands twice' ./logcheck --source 4 --text --text c0
    refuses 'a question after FILE' '--source stands before a FILE or a history' ./logcheck logs/p02.log --source 4
    refuses 'a question after a history' '--edge stands before a FILE or a history' ./logcheck --text "$p2" --edge 1 2
    refuses '--text after FILE' '--text stands before a FILE or a history' ./logcheck logs/p02.log --text
    refuses 'an option after a question' "no option '--wrong'" ./logcheck --source 4 --wrong logs/p02.log
    refuses '--help after a question' '--help stands alone' ./logcheck --source 4 --help
    refuses '--version after a question' '--version stands alone' ./logcheck --edge 1 2 --version
    refuses 'a number that belongs to the option' "no option '--source=4'" ./logcheck --source=4 logs/p02.log
    refuses 'a question, and a file that is not there' "no file '$room/none'" ./logcheck --source 4 "$room/none"
    refuses 'a question, and an empty name' 'name of the file is empty' ./logcheck --source 4 ''
    refuses 'a question, and a folder' "'logs' is a directory" ./logcheck --edge 1 2 logs
    refuses 'a question, and a wrong history' "record 1, character 8: 'q1[xB]' is not" ./logcheck --source 4 --text 'w0[xA] q1[xB] c0'
}

# ---- what is given

check_wrong_calls() {
    refuses 'a file that is not there' "no file '$room/none'" ./logcheck "$room/none"
    refuses 'a file below a file' "no file 'README.md/none'" ./logcheck README.md/none
    refuses 'an empty name' 'name of the file is empty' ./logcheck ''
    refuses 'a folder' "'logs' is a directory" ./logcheck logs
    refuses 'two files' 'too many arguments' ./logcheck logs/p01.log logs/p02.log
    refuses 'an option that is not there' "'--wrong'" ./logcheck --wrong
    refuses 'a name with a dash and no --' "'-c7.log'" ./logcheck -c7.log
    refuses 'two histories' 'a history is one, in quotes' ./logcheck --text c0 c1
    refuses 'an option for a history' "record 0, character 1: '--help' is not" ./logcheck --text --help
    refuses 'two dashes for a history' "record 0, character 1: '--' is not" ./logcheck --text --
    refuses '--text for a history' "record 0, character 1: '--text' is not" ./logcheck --text --text
    refuses '--text for the history of a question' "record 0, character 1: '--text' is not" ./logcheck --text --source 0 --text
    refuses '--version with an argument' 'too many arguments' ./logcheck --version 1
    refuses '--help with an argument' 'too many arguments' ./logcheck --help logs/p01.log
    refuses 'a name with a line break' "no file \$'a\\nb'" ./logcheck $'a\nb'
    refuses 'a name that is no UTF-8' "no file \$'\\377'" ./logcheck $'\377'
    refuses 'a name that no file can have' "no file 'aaa" ./logcheck "$(repeat 5000 a)"
    refuses "a name of bash's for a connection" 'no file' ./logcheck /dev/tcp/127.0.0.1/1
    perl -MSocket -e 'socket(S, AF_UNIX, SOCK_STREAM, 0) && bind(S, sockaddr_un($ARGV[0])) or die' "$room/socket"
    refuses 'a socket' "'$room/socket' is a socket" ./logcheck "$room/socket"
    ln -s loop "$room/loop"
    refuses 'a link to itself' "'$room/loop' cannot be read: Too many" ./logcheck "$room/loop"
    if [ "$(id -u)" -ne 0 ]; then # root may read everything
        install -m 0 /dev/null "$room/closed"
        refuses 'a file that cannot be read' "'$room/closed' cannot be read: Permission denied" ./logcheck "$room/closed"
        refuses 'a question on a file that cannot be read' "'$room/closed' cannot be read: Permission denied" ./logcheck --source 0 "$room/closed"
    fi
}

check_wrong_histories() {
    refuses 'a word that is no operation' "record 1, character 8: 'q1[xB]' is not" ./logcheck --text 'w0[xA] q1[xB] c0'
    refuses 'a bracket that is not closed' "record 0, character 1: 'w0[xA' is not" ./logcheck --text 'w0[xA c0'
    refuses 'a site without a letter' "record 1, character 3: 'r1[xQ]' is not" ./logcheck --text 'c0r1[xQ]c1'
    refuses 'a number that fits into no byte' "record 1, character 4: 'c256' has" ./logcheck --text 'c0 c256'
    refuses 'a very long number' 'record 0, character 1' ./logcheck --text 'c18446744073709551616'
    refuses 'two numbers with nothing between' "record 0, character 1: 'w0[12]' is not an operation: a comma" ./logcheck --text 'w0[12] c0'
    refuses 'an operation without an end' "record 1, character 4: 'w0[x,' is not" ./logcheck --text 'c0 w0[x,'
    refuses 'letters beyond ASCII' "record 1, character 4: 'é' is not" ./logcheck --text 'c0 é c1'
    refuses 'a mark that cannot be seen' "record 0, character 1: \$'\\357\\273\\277c0' is not" ./logcheck --text $'\357\273\277c0'
    printf 'c0 c1 \0 c2' >"$room/zero"
    refuses 'a zero byte in a history' "record 2, character 7: \$'\\000' is not" ./logcheck --text <"$room/zero"
}

# The line and the column are those of the word; one line, with or without its end, has characters only.
check_places() {
    refuses 'a word on the second line' "record 2, line 2, column 6: 'q1' is not" ./logcheck --text $'w0[xA]\n\t c0 q1 c1'
    refuses 'a word on the first of two lines' "record 1, line 1, column 4: 'q1' is not" ./logcheck --text $'c0 q1\nc1'
    refuses 'a word at the start of a line' "record 1, line 3, column 1: 'q1' is not" ./logcheck --text $'c0\r\n\nq1\n'
    refuses 'a number on the second line' "record 1, line 2, column 2: 'c256' has" ./logcheck --text $'c0\n c256'
    printf 'c0 q1\n\n' >"$room/text"
    refuses 'one line and its end' "record 1, character 4: 'q1' is not" ./logcheck --text <"$room/text"
}

# A history has an end, whatever is given, and takes as long as what is read of it.
check_long_histories() {
    printf 'serial 1\n0\n' >"$room/0"
    repeat 100000 'c0 ' >"$room/text"
    answers '100,000 operations' "$too_long" timeout 60 ./logcheck --text <"$room/text"
    { repeat 4097 'c0 ' && echo 'no history'; } >"$room/text"
    answers 'anything after more operations than a log can have' "$too_long" ./logcheck --text <"$room/text"
    { repeat 4096 'c0 ' && echo 'no history'; } >"$room/text"
    refuses 'a wrong word after as many operations as a log can have' "record 4096, character 12289: 'no' is not" ./logcheck --text <"$room/text"
    { printf c && repeat 200000 0; } >"$room/text"
    answers 'a number with 200,000 zeros' "$room/0" timeout 60 ./logcheck --text <"$room/text"
    { printf 'w0[x' && repeat 200000 ' ' && echo 'A]c0'; } >"$room/text"
    answers '200,000 blanks in an operation' "$room/0" timeout 60 ./logcheck --text <"$room/text"
    { printf 'w0[' && repeat 200000 1 && echo x; } >"$room/text"
    refuses '200,000 digits and no end' "record 0, character 1: 'w0[111" timeout 60 ./logcheck --text <"$room/text"
    answers 'operations without an end' "$too_long" endless 'c0 '
    refuses 'blanks without an end' 'too long: more than 1048576 characters, with 0 operations' endless ' '
    refuses 'a number without an end' 'too long: more than 1048576 characters, with 1 operations' endless 1 'c0 c'
    { repeat 1048576 ' ' && repeat 4097 'c0 '; } >"$room/text"
    refuses 'operations behind the bound' 'too long: more than 1048576 characters, with 0 operations' ./logcheck --text <"$room/text"
    refuses 'blanks in an operation without an end' 'too long' endless ' ' 'w0['
    refuses 'wrong words without an end' "record 0, character 1: 'qqq" endless q
    repeat 5000 'w0[10,10]' >"$room/text" # bytes that are line ends, and a program that stops reading
    answers 'too many operations, and no signal for a pipe' "$too_long" without_signal ./logcheck --text <"$room/text"
    answers 'operations enough, and a writer that waits' "$too_long" from_slow_writer "$(repeat 4098 'c0 ')" ./logcheck --text
}

# Ways to write one and the same, and inputs that are odd but good.
check_other_calls() {
    answers 'a history without blanks' logs/h1.answer ./logcheck --text 'w0[xA]w0[xB]w0[yC]c0r1[yC]w1[xA]c1r2[xB]w2[yC]c2'
    answers 'a history in numbers' logs/h1.answer ./logcheck --text 'w0[0,0] w0[0 1] w0[1C] c0 r1[y2] w1[x,A] c1 r2[00,01] w2[yC] c2'
    answers 'a history with blanks and subscripts' logs/h1.answer \
        ./logcheck --text $' w_0 [ x_A ]\tw 0[x B]\r\nw0[y , C]c 0 r1[yC] w1[xA] c1 r2[xB] w2[yC] c2\n'
    echo 'c0 c0' >"$room/text"
    answers 'a history on standard input' logs/p14.answer ./logcheck --text <"$room/text"
    answers 'the highest number that fits into a byte' logs/transaction-64.answer ./logcheck --text 'c255'
    answers 'a history on standard input, by name' logs/p14.answer ./logcheck --text - <"$room/text"
    head -c 20000 /dev/zero >"$room/long"
    answers 'a file of 20,000 bytes' "$too_long" ./logcheck "$room/long"
    answers '20,000 bytes on standard input' "$too_long" ./logcheck <"$room/long"
    answers 'zero bytes without an end' "$too_long" timeout 60 ./logcheck /dev/zero
    cp logs/c7.log "$room/-c7.log"
    answers 'another folder, and a name with a dash' "$here/logs/c7.answer" in_folder "$room" "$here/logcheck" -- -c7.log
    ln -s "$here/logcheck" "$room/a link"
    answers 'a link to the command' logs/h1.answer "$room/a link" logs/h1.log
    cp logcheck "$room/copy"
    refuses 'a copy of the command' 'a copy without its repository' "$room/copy" logs/h1.log
    answers 'the command by sh' logs/h1.answer sh ./logcheck logs/h1.log
    answers 'the command by bash' logs/h1.answer bash ./logcheck logs/h1.log
    answers 'the command by bash -e' logs/c7.answer bash -e ./logcheck logs/c7.log
}

# A history in letters has the bytes of the same history in numbers, and the script that prints them has messages of its own.
check_bytes() {
    local letter number=0 letters='' numbers=''
    for letter in x y z {a..w}; do
        letters+="w0[${letter}A] " numbers+="w0[$((number++)),0] "
    done
    number=0
    for letter in {A..P}; do
        letters+="r0[x$letter] " numbers+="r0[0,$((number++))] "
    done
    scripts/log-from-text.sh "$numbers" >"$room/numbers"
    check 'items and sites in letters have other bytes than in numbers' cmp "$room/numbers" <(scripts/log-from-text.sh "$letters")
    check 'a record has other than 4 bytes' [ "$(wc -c <"$room/numbers")" -eq $((42 * 4)) ]
    answers 'a history that comes byte by byte' logs/h1.answer byte_by_byte 'w0[0,0] w0[x, B] w 0 [1 C]c0 r1[yC] w1[x0] c1 r2[xB] w2[yC] c2 '
    refuses 'a wrong word that comes byte by byte' "'W0[xA]' is not an operation, but 'w0[xA]' is" byte_by_byte 'c0 W0[xA] c1 '
    run scripts/log-from-text.sh 'c0 q1'
    check 'log-from-text.sh: another status or message for what is no history' [ "$status $(wc -c <"$room/out") $(cut -c 1-14 "$room/err")" = '3 0 log-from-text:' ]
    run without_input scripts/log-from-text.sh
    check 'log-from-text.sh: no standard input' [ "$status $(<"$room/err")" = '3 log-from-text: standard input is closed' ]
    run into_full scripts/log-from-text.sh c0
    check 'log-from-text.sh: a full disk' [ "$status $(<"$room/err")" = '3 log-from-text: standard output cannot be written' ]
}

check_hints() {
    refuses 'a history for FILE' "no file 'w0[xA] c0'; it reads as a history: was --text meant?" ./logcheck 'w0[xA] c0'
    refuses 'a long history for FILE' 'was --text meant?' ./logcheck "$(repeat 300 'c0 ')"
    refuses 'a name that is no history' "no file 'w0[xA] q0'" ./logcheck 'w0[xA] q0'
    check 'a name that is no history has a hint' lacks --text "$room/err"
    printf 'w0[xA] c0\n' >"$room/h.txt" # 10 bytes
    hints 'a file with a history' logs/three-bytes.answer "was ./logcheck --text <'$room/h.txt' meant?" ./logcheck "$room/h.txt"
    hints 'a history on standard input' logs/three-bytes.answer 'was ./logcheck --text meant?' ./logcheck <"$room/h.txt"
    printf 'c0 c1 \n\n' >"$room/8"
    hints 'a text that has whole records' logs/kind-0.answer 'is text' ./logcheck "$room/8"
    repeat 20000 'c0 ' >"$room/long"
    hints 'a long text' "$too_long" 'is text' ./logcheck "$room/long"
    answers 'a history and then a log: no hint' logs/kind-0.answer ./logcheck <(printf 'c0  \1\0\0\0')
    refuses 'the name of a history to --text' "was ./logcheck --text <'$room/h.txt' meant?" ./logcheck --text "$room/h.txt"
    refuses 'the name of a log to --text' "was ./logcheck 'logs/h1.log' meant?" ./logcheck --text logs/h1.log
    check_hints_on_questions
    refuses 'a log to --text' 'record 0, character 1' ./logcheck --text <logs/p02.log
    check 'a log to --text: a hint' grep -qF 'a log is judged without --text' "$room/err"
    refuses 'a capital letter for a kind' "'W0[xA]' is not an operation, but 'w0[xA]' is" ./logcheck --text 'W0[xA] c0'
    refuses 'capital and small letters exchanged' "'w0[Xa]' is not an operation, but 'w0[xA]' is" ./logcheck --text 'w0[Xa] c0'
    refuses 'a capital letter and a number that fits into no byte' "'W256[xA]' is not an operation" ./logcheck --text 'W256[xA] c0'
    check 'a number that fits into no byte has a hint' lacks w256 "$room/err"
    refuses 'a capital letter for a commit' "'C0' is not an operation, but 'c0' is" ./logcheck --text 'w0[xA] C0'
}

# The question belongs to what may have been meant.
check_hints_on_questions() {
    hints 'a question on a file with a history' logs/three-bytes.answer "was ./logcheck --source 1 --text <'$room/h.txt' meant?" \
        ./logcheck --source 1 "$room/h.txt"
    hints 'a question on a history on standard input' logs/three-bytes.answer 'was ./logcheck --edge 0 1 --text meant?' \
        ./logcheck --edge 0 01 <"$room/h.txt"
    hints 'a question on a text that has whole records' logs/kind-0.answer 'is text' ./logcheck --source 1 "$room/8"
    hints 'a question on a long text' "$too_long" 'is text' ./logcheck --source 1 "$room/long"
    answers 'a question on a history and then a log: no hint' logs/kind-0.answer ./logcheck --source 1 <(printf 'c0  \1\0\0\0')
    refuses 'a question, and a history for FILE' 'it reads as a history: was --text meant?' ./logcheck --source 1 'w0[xA] c0'
    refuses 'a question, and the name of a history to --text' "was ./logcheck --source 1 --text <'$room/h.txt' meant?" \
        ./logcheck --text --source 1 "$room/h.txt"
    refuses 'a question, and the name of a log to --text' "was ./logcheck --edge 1 2 'logs/h1.log' meant?" \
        ./logcheck --edge 1 2 --text logs/h1.log
    cp logs/p02.log "$room/-p02.log"
    refuses 'a question, and a name with a dash to --text' "was ./logcheck --source 4 -- '-p02.log' meant?" \
        in_folder "$room" "$here/logcheck" --source 4 --text -p02.log
    tells 'a question as that hint has it' '0 2' in_folder "$room" "$here/logcheck" --source 4 -- -p02.log
}

# ---- where it comes from and goes to

check_closed() {
    refuses 'no standard input' 'standard input is closed' without_input ./logcheck
    refuses 'no standard input, by name' 'standard input is closed' without_input ./logcheck -
    refuses 'no standard input, by another name' "'/dev/stdin'" without_input ./logcheck /dev/stdin
    refuses 'no standard input for a history' 'standard input is closed' without_input ./logcheck --text
    refuses 'no standard input for a question' 'standard input is closed' without_input ./logcheck --source 0
    refuses 'no standard input for a question, by name' 'standard input is closed' without_input ./logcheck --edge 0 1 -
    refuses 'no standard input for a question, by another name' "'/dev/stdin'" without_input ./logcheck --source 0 /dev/stdin
    refuses 'no standard input for a question on a history' 'standard input is closed' without_input ./logcheck --source 0 --text
    tells 'a question on a file, and no standard input' '0 2' without_input ./logcheck --source 4 logs/p02.log
    tells 'a question on a history, and no standard input' '0 2' without_input ./logcheck --source 4 --text "$p2"
    tells 'a question, and no standard error' '0 2' without_errors ./logcheck --source 4 logs/p02.log
    refuses 'no standard output for a question' 'standard output is closed' without_output ./logcheck --source 4 logs/p02.log
    answers 'a file, and no standard input' logs/h1.answer without_input ./logcheck logs/h1.log
    answers 'a history, and no standard input' logs/c7.answer without_input ./logcheck --text c7
    answers 'no standard error' logs/h1.answer without_errors ./logcheck logs/h1.log
    refuses 'no standard output' 'standard output is closed' without_output ./logcheck logs/h1.log
    refuses 'no standard output for a history' 'standard output is closed' without_output ./logcheck --text c7
    refuses 'no standard output for --help' 'standard output is closed' without_output ./logcheck --help
    check '--help, and no standard input' without_input ./logcheck --help
    run without_error_reader ./logcheck "$room/none"
    check 'a reader of standard error that is gone: another status than 3' [ "$status" -eq 3 ]
    run without_errors ./logcheck "$room/none"
    check 'neither a file nor standard error: another status than 3' [ "$status" -eq 3 ]
}

check_unlucky() {
    refuses 'a folder on standard input' 'standard input cannot be read' ./logcheck <logs
    refuses 'a folder on standard input for a history' 'standard input cannot be read: Is a directory' ./logcheck --text <logs
    refuses 'a file whose read fails' "'/proc/self/mem' cannot be read" ./logcheck /proc/self/mem
    refuses 'a folder on standard input for a question' 'standard input cannot be read' ./logcheck --source 0 <logs
    refuses 'a file whose read fails, for a question' "'/proc/self/mem' cannot be read" ./logcheck --source 0 /proc/self/mem
    refuses 'a read that fails half way' 'standard input cannot be read' from_half_readable ./logcheck
    refuses 'a read that fails half way, for a source' 'standard input cannot be read' from_half_readable ./logcheck --source 0
    refuses 'a read that fails half way, for an edge' 'standard input cannot be read' from_half_readable ./logcheck --edge 0 1
    refuses 'a full disk for a question' 'standard output cannot be written' into_full ./logcheck --source 4 logs/p02.log
    refuses 'a reader of an edge that is gone' 'standard output cannot be written' without_reader ./logcheck --edge 1 2 logs/p02.log
    refuses 'a full disk' 'standard output cannot be written' into_full ./logcheck logs/h1.log
    refuses 'a full disk for a history' 'standard output cannot be written' into_full ./logcheck --text c7
    refuses 'a full disk for --help' 'standard output cannot be written' into_full ./logcheck --help
    refuses 'a full disk for --version' 'standard output cannot be written' into_full ./logcheck --version
    refuses 'a reader that is gone' 'standard output cannot be written' without_reader ./logcheck logs/h1.log
    refuses 'a reader of --help that is gone' 'standard output cannot be written' without_reader ./logcheck --help
    run read_first_lines
    check 'a reader of the first line alone leads to a message' [ ! -s "$room/err" ]
}

# What a caller may have set for himself changes nothing.
check_environment() {
    local setting
    printf 'exit 7\n' >"$room/start"
    for setting in POSIXLY_CORRECT=1 LC_ALL=xx_XX.UTF-8 LC_ALL=C LANG=xx_XX CDPATH="$room" TMPDIR="$room/none" "BASH_ENV=$room/start" \
        SHELLOPTS=xtrace:noglob 'BASH_FUNC_printf%%=() { :; }' PERL5OPT=-Mnone PERL_UNICODE=SAD QEMU_STRACE=1 PATH=/none GREP_OPTIONS=-v \
        FUNCNEST=1 BASH_COMPAT=xx 'asked= --edge 0 1' taken=yes; do
        answers "a log, with $setting" logs/h1.answer env "$setting" ./logcheck logs/h1.log
        answers "a history, with $setting" logs/c7.answer env "$setting" ./logcheck --text 'c7'
        tells "a question, with $setting" '0 2' env "$setting" ./logcheck --source 4 logs/p02.log
    done
    tells 'a question, without an environment' '0 2' env -i ./logcheck --source 4 logs/p02.log
    answers 'a log, without an environment' logs/h1.answer env -i ./logcheck logs/h1.log
    answers 'a history, without an environment' logs/c7.answer env -i ./logcheck --text 'c7'
    refuses 'a wrong file, with POSIXLY_CORRECT' 'no file' env POSIXLY_CORRECT=1 ./logcheck "$room/none"
    refuses 'a wrong history, with PERL_UNICODE' "record 1, character 4: 'é' is" env PERL_UNICODE=SAD ./logcheck --text 'c0 é'
}

# A terminal is what `script` makes, which Debian always has. What a terminal shows has its own line ends.
check_terminal() {
    run timeout 60 script -qec "'$here/logcheck'" /dev/null </dev/null
    check 'no FILE at a terminal: no word on it' grep -q 'standard input is a terminal' "$room/out"
    run timeout 60 script -qec "'$here/logcheck' --source 0" /dev/null </dev/null
    check 'a question, and no FILE at a terminal: no word on it' grep -q 'standard input is a terminal' "$room/out"
    echo 'c7' >"$room/text"
    run timeout 60 script -qec "'$here/logcheck' --text" /dev/null <"$room/text"
    cp "$room/out" "$room/terminal"
    check '--text at a terminal: no word on how to end it' grep -q '^logcheck: waiting for a history; Ctrl-D' "$room/terminal"
    check '--text at a terminal: no answer' grep -q '^serial 1' "$room/terminal"
    run timeout 60 script -qec "'$here/logcheck' --source 0 --text" /dev/null <"$room/text"
    cp "$room/out" "$room/terminal"
    check 'a question and --text at a terminal: no word on how to end it' grep -q '^logcheck: waiting for a history; Ctrl-D' "$room/terminal"
    check 'a question and --text at a terminal: no answer' grep -q '^none' "$room/terminal"
}

# ---- what it says of itself

check_help() {
    local words
    check './logcheck --help fails' ./logcheck --help
    cp "$room/said" "$room/help"
    for words in '^Asks of a finished run .* one-copy serializable' '^    0 .*serial n' '^    1 .*cycle n' '^    2 .*refused number' \
        '^    3 .*(nothing)' '^    --source K .*transaction place' '^    --edge I J .*reason' '^./logcheck --source K FILE ' \
        '^./logcheck --edge I J FILE ' 'docs/LOGS.md is the reference' 'r1\[xA\]'; do
        check "./logcheck --help has no $words" grep -q -- "$words" "$room/help"
    done
    check './logcheck --help speaks of document 01' lacks 'document 01' "$room/help"
    run ./logcheck -h
    check './logcheck -h is not --help' cmp "$room/help" "$room/out"
    printf 'fruscalenta %s\n%s\n' "$(cat VERSION)" "$(rt version)" >"$room/version"
    run ./logcheck --version
    check './logcheck --version has not both versions' cmp "$room/version" "$room/out"
}

./logcheck </dev/null >/dev/null # builds it, where that is needed
./logcheck --source 0 </dev/null >/dev/null # the same for the program that answers questions
check_sources
check_edges
check_ways_to_ask
check_numbers
check_wrong_questions
check_wrong_calls
check_wrong_histories
check_places
check_long_histories
check_other_calls
check_bytes
check_hints
check_closed
check_unlucky
check_environment
check_terminal
check_help
counts
