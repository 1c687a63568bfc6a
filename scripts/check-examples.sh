#!/bin/bash
# Holds docs/example.c and docs/example.rs to their own first comments: to the lines with a `>`, which are what they print; to the command
# that builds and runs them; and to the compiler's line for who links the library in a build of their own. It prints a line for each
# failure, and `N passed, M failed` at the end.
. "$(dirname "$0")/checks.sh"
. scripts/x86-64.sh
. scripts/x86-c.sh

# What stands behind this front in the lines of an example's first comment.
comment() { # ENDING FRONT
    sed -n "s#^\( \*\|//!\)$2##p" "docs/example.$1"
}

# A command prints the comment's lines, and nothing else.
prints() { # ENDING COMMAND ..
    comment "$1" '   > ' >"$room/wanted"
    "${@:2}" >"$room/printed" && [ -s "$room/wanted" ] && diff "$room/wanted" "$room/printed"
}

# The comment's command.
by_command() { # ENDING
    local argument
    argument=$(comment "$1" '     scripts/example.sh ')
    [ "$argument" = "$1" ] && prints "$1" scripts/example.sh "$argument"
}

# The comment's compiler line, with the compiler for x86-64.
by_compiler() { # ENDING NAME-IN-THE-LINE COMPILER
    local words
    read -ra words <<<"$(comment "$1" "     $2 ")"
    rm -f "target/example-$1"
    "$3" "${words[@]}" && prints "$1" x86_run "target/example-$1"
}

# A wrong call has status 2, and prints one line.
refused() { # ARGUMENTS ..
    scripts/example.sh "$@" >"$room/printed" 2>&1
    [ $? -eq 2 ] && [ "$(wc -l <"$room/printed")" -eq 1 ]
}

check 'the tools for x86-64 are not there' x86_setup
check 'there is no library to link' x86_library
mkdir -p target # as the comments have it
before=$(ls -A)
check 'docs/example.c, by the command of its comment' by_command c
check 'docs/example.rs, by the command of its comment' by_command rs
check 'docs/example.c, by the compiler line of its comment' by_compiler c gcc x86_cc
check 'docs/example.rs, by the compiler line of its comment' by_compiler rs rustc x86_rustc
check 'scripts/example.sh without an argument' refused
check 'scripts/example.sh with another ending' refused py
check 'scripts/example.sh with two arguments' refused c rs
check 'the examples leave a file in the root' [ "$before" = "$(ls -A)" ]
counts
