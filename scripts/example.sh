#!/bin/bash
# Builds docs/example.c (`scripts/example.sh c`) or docs/example.rs (`scripts/example.sh rs`) below target/, on any machine, and runs it.
# Where the library is not there it is built first. The status is the example's, or 2 where it cannot be built.
set -u

fail() { # MESSAGE
    echo "example: $1" >&2
    exit 2
}

build_c() { x86_cc -std=c99 -Wall -Wextra -Werror -Iinclude docs/example.c "$x86_archive" -o "$program"; }
build_rs() { x86_rustc --edition 2021 -D warnings -L "$(dirname "$x86_archive")" -l static=clib docs/example.rs -o "$program"; }

root=$(dirname "$(dirname "$(readlink -f "$0")")")
cd "$root" || exit 2
. scripts/x86-64.sh
. scripts/x86-c.sh
case "$*" in
c) compiler=$x86_cc_name ;;
rs) compiler=$x86_rustc_name ;;
*) fail 'it takes one argument: c for docs/example.c, or rs for docs/example.rs' ;;
esac
program=target/example-$1
mkdir -p target || exit 2
x86_setup >&2 || exit 2
command -v "$compiler" >/dev/null || fail "the compiler $compiler is not on this machine"
x86_library || exit 2
"build_$1" >&2 || fail "docs/example.$1 is not built"
x86_run "$program"
