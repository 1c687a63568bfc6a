#!/bin/bash
# Holds include/fruscalenta.h to the library. A C program (face/) calls all that the header declares and wants answers that are known; the
# functions of the header are those that the library exports; and the library keeps and allocates nothing, as the header says. Then mistakes
# are made in copies of the header, each of which has to make the program fail: not compile, or have a wrong answer. It prints a line for
# each failure, and `N passed, M failed` at the end.
. "$(dirname "$0")/checks.sh"
. scripts/x86-64.sh
. scripts/x86-c.sh
ulimit -c 0 # a wrong header may crash the program

strict=(-Wall -Wextra -Werror)
cxx=$(command -v x86_64-linux-gnu-g++ || command -v g++ || command -v c++) # syntax is alike on all machines

alone() { # STANDARD
    x86_cc "-std=$1" -pedantic "${strict[@]}" -Wstrict-prototypes -fsyntax-only -x c include/fruscalenta.h
}
alone_in_cxx() { "$cxx" -std=c++11 -pedantic "${strict[@]}" -fsyntax-only -x c++ include/fruscalenta.h; }

# The names that a header declares.
names() { # PATTERN
    x86_cc -E -dD -P include/fruscalenta.h | grep -oE "$1" | sort -u
}
exports_agree() {
    diff <(names '\bfruscalenta_\w+\(' | tr -d '(') <(x86_binutil nm --defined-only --extern-only --format=posix "$x86_archive" | awk 'NF > 1 { print $1 }' | sort)
}
# Every name is used in the program: a function in a call, with its arguments on the same line.
all_used() {
    local name
    for name in $(names '\b(FRUSCALENTA_\w+|fruscalenta_\w+)\b'); do
        [ "$name" = FRUSCALENTA_H ] || grep -qw "$name" face/header.c || { echo "$name is not used" && return 1; }
    done
    for name in $(names '\bfruscalenta_\w+\(' | tr -d '('); do
        grep -q "^ .*$name(.*);\|^ .*$name(.*), " face/header.c || { echo "$name is not called" && return 1; }
    done
}

# "Nothing is allocated": all that the library calls is what a compiler uses to copy and to fill.
allocates_nothing() {
    ! x86_binutil nm --undefined-only --format=posix "$x86_archive" | awk 'NF > 1 { print $1 }' | grep -vx 'mem\(cpy\|set\|move\|cmp\)'
}
# "Nothing is kept between calls": no section that can be written has a byte.
keeps_nothing() {
    x86_binutil size -A "$x86_archive" >"$room/sections" && grep -q '^\.text' "$room/sections" &&
        ! awk '/^\.t?(data|bss)/ && !/^\.data\.rel\.ro/ && $2 > 0' "$room/sections" | grep .
}

build() { # FOLDER-OF-HEADER
    x86_cc -std=c11 -O1 "${strict[@]}" "-I$1" face/header.c "$x86_archive" -o "$room/program"
}

# The program's own count is part of this one.
run_program() {
    local good=0 bad
    x86_run "$room/program" >"$room/printed"
    count 'the program of face/ has wrong answers, or does not run to its end' $?
    read -r good bad <<<"$(sed -n '$s/^\([0-9]*\) passed, \([0-9]*\) failed$/\1 \2/p' "$room/printed")"
    grep -v ' passed, ' "$room/printed"
    passed=$((passed + good))
    failed=$((failed + ${bad:-0}))
}

passes() { # FOLDER-OF-HEADER
    build "$1" && x86_run "$room/program"
}
is_caught() { # FOLDER-OF-HEADER
    [ -s "$1/fruscalenta.h" ] && ! passes "$1"
}

check 'the tools for x86-64 are not there' x86_setup
check 'there is no library to link' x86_library
if [ "$failed" -gt 0 ]; then
    counts
    exit 1
fi
check 'the header alone is not good C99' alone c99
if [ "$cxx" ]; then
    check 'the header alone is not good C++' alone_in_cxx
else
    echo 'not tried: C++, for which there is no compiler'
fi
check 'the functions of the header are not those that the library exports' exports_agree
check 'a name of the header is not used in face/header.c' all_used
check 'the library calls more than a compiler needs to copy and to fill' allocates_nothing
check 'the library has memory of its own that can be written' keeps_nothing
check 'the program of face/ is not built' build include
run_program
mkdir -p "$room/mistakes/none"
cp include/fruscalenta.h "$room/mistakes/none"
check 'a copy of the header without a mistake is not as good as the header' passes "$room/mistakes/none"
check 'no mistakes could be made' perl scripts/header-mistakes.pl include/fruscalenta.h "$room/mistakes"
cp "$room/said" "$room/list"
check 'not 60 mistakes could be made, though there are that many' [ "$(wc -l <"$room/list")" -ge 60 ]
while IFS=$'\t' read -r folder mistake; do
    check "a header with a mistake passes: $mistake" is_caught "$room/mistakes/$folder"
done <"$room/list"
counts
