# shellcheck shell=bash disable=SC2154
# C and single Rust files for x86-64 Linux, on any machine, and the library that they link. To be sourced behind x86-64.sh, whose x86_setup
# makes the tools ready, with the repository's folder as the working folder; gives
#   x86_make_library                      makes the static library of the sources as they are now, with all that rt says
#   x86_library                           makes it where it is not there, and says in one line why it cannot
#   x86_archive                           its file
#   x86_cc WORDS .., x86_rustc WORDS ..   the compilers
#   x86_cc_name, x86_rustc_name           their programs
#   x86_binutil NAME WORDS ..             a program that reads what was built, as nm

. scripts/lock.sh

x86_archive=crates/clib/out/libclib.a # rt ci puts it aside, with all of out/

if [ "$(uname -m)" = x86_64 ]; then
    x86_cc_name=$(command -v gcc || echo cc)
    x86_rustc_name=rustc
    x86_linker=()
    x86_binutil() { "$@"; }
else
    x86_cc_name=x86_64-linux-gnu-gcc
    x86_rustc_name=/usr/bin/rustc # x86_cargo's
    x86_linker=(-C "linker=$x86_cc_name")
    x86_binutil() { "x86_64-linux-gnu-$1" "${@:2}"; }
fi
x86_cc() { "$x86_cc_name" "$@"; }
x86_rustc() { "$x86_rustc_name" --target "$x86_target" "${x86_linker[@]}" "$@"; }

x86_make_library() (
    rm -f "$x86_archive" # where the build fails, none is left
    cd ./crates/clib && rt lib </dev/null
)

x86_library() {
    local log
    [ -e "$x86_archive" ] && return 0
    if ! command -v rt >/dev/null; then
        echo 'the library has to be built, and the Rattle kit (rt) is not on this machine' >&2
        return 1
    fi
    echo 'proving and building the library, once; this takes some minutes' >&2
    log=$(mktemp) || return 1
    if under_lock example x86_make_library >"$log" 2>&1 && [ -e "$x86_archive" ]; then
        rm -f "$log"
        return 0
    fi
    echo "the library could not be built ($log has what rt said)" >&2
    return 1
}
