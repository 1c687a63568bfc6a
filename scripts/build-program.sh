# Proves and builds a program of the command where that is needed: `logcheck`, which judges, or `ask`, which answers questions. To be sourced
# by ./logcheck, whose fail, say and run_program it calls, with the repository's folder as the working folder; gives
#   make_program NAME    sets `program` to the program of the sources as they are now, and builds it where it is not there
# A program is put in place by a rename once it was proved, built and tried, so nobody runs half of one. Its name has a sum over its
# sources: it is never that of other sources, and no clock plays a part. A call builds the program that it runs, and not the other.
# shellcheck shell=bash
. scripts/lock.sh

# Sets `crates` to those of the repository that the program is made of, the lowest first, and `program` to where the program stands once it is
# built.
locate_program() { # NAME
    local crate sum
    crates=()
    for crate in $(sed -n "s/^$1://p" crates.txt 2>/dev/null) "$1"; do
        if [ -d "crates/$crate" ]; then crates+=("$crate"); fi # the others are the kit's
    done
    sum=$(set -o pipefail && find crates.txt "${crates[@]/#/crates/}" -regex 'crates/[^/]*/\(must-fail\|out\)' -prune -o \
        -type f -exec sha256sum {} + 2>/dev/null | sort | sha256sum) || fail "the sources of the program, in ${PWD@Q}, cannot be read"
    program=target/command/$1-${sum:0:16}
}

# Takes no lock where the program is there, so that uses do not wait for each other, nor for a build of ./test.
make_program() { # NAME
    locate_program "$1"
    [ ! -x "$program" ] || return 0
    command -v rt >/dev/null || fail 'the program has to be built, and the Rattle kit (rt) is not on this machine'
    take_lock logcheck
    locate_program "$1"
    [ -x "$program" ] || build_program "$1" # unless the one before has built it
    free_lock
}

# A build that fails by a crate is at its end (rt's status is 1, or 3 where the prover cannot tell). Any other failure may come from what
# a build left that was killed, so there all is built once more, from nothing.
build_program() { # NAME
    local status left=no
    umask u+rwx # a caller's mask may keep him from his own files
    mkdir -p target/command 2>/dev/null && [ -w target/command ] ||
        fail "the program has to be built, and ${PWD@Q}/target cannot be written"
    ! compgen -G 'crates/*/out' >/dev/null || left=yes
    if compgen -G 'crates/*/out/rlib/stamp' >/dev/null; then # a crate below is built
        say 'bringing the program up to date'
    else
        say 'proving and building the program, once; this takes some minutes'
    fi
    prove_program "$1"
    status=$?
    if [ "$left" = yes ] && [[ $status != [013] ]]; then
        say 'what an earlier build left is of no use; building from nothing, which takes some minutes'
        prove_from_nothing "$1"
        status=$?
    fi
    [ "$status" -eq 0 ] || fail "the program cannot be built; in ${PWD@Q}/crates/$1, 'rt check' shows why"
    install_program "$1"
}

# The failure may have another cause, and then what an earlier build left is good: it goes only once there is something better. Only what
# rt has left of the program's own crates is moved.
prove_from_nothing() { # NAME
    local crate status
    rm -rf target/aside 2>/dev/null
    for crate in "${crates[@]}"; do
        mkdir -p "target/aside/$crate" 2>/dev/null && mv "crates/$crate/out" "target/aside/$crate" 2>/dev/null
    done
    prove_program "$1"
    status=$?
    if [ "$status" -ne 0 ]; then
        for crate in "${crates[@]}"; do
            [ -d "target/aside/$crate/out" ] || continue
            rm -rf "crates/$crate/out" 2>/dev/null
            mv "target/aside/$crate/out" "crates/$crate" 2>/dev/null
        done
    fi
    rm -rf target/aside 2>/dev/null
    return "$status"
}

# rt's status, or 2 where rt is content and the program does not work, as one that was half written by a build before. rt also runs what it
# has built, which may fail for a cause that is not the build's: whether it is built is said by the stamp, which rt writes at the end of a
# build of sources that did not change meanwhile.
prove_program() { # NAME
    local status stamp=crates/$1/out/$1.stamp
    [ -w "${TMPDIR:-/tmp}/." ] || unset TMPDIR # rt wants a temporary folder
    rm -f "$stamp" 2>/dev/null
    (trap - PIPE XFSZ && cd "./crates/$1" && exec rt run) </dev/null 2>&1 | show_progress
    status=${PIPESTATUS[0]}
    [ -e "$stamp" ] || return $((status ? status : 2))
    program_works "$1" || return 2
}

# It must judge the empty log, or answer that this has no record 0, whose source is asked for (take_question in ./logcheck has the bytes).
program_works() { # NAME
    case $1 in
    logcheck) [ "$(run_program crates/logcheck/out/logcheck </dev/null)" = 'serial 0' ] ;;
    ask) [ "$(printf '\0\0\0\0\0' 2>/dev/null | run_program crates/ask/out/ask)" = 'refused 10 0' ] ;;
    esac
}

# The lock is held, so `new` is this build's alone; one that was killed may have left half of it.
install_program() { # NAME
    install -m 755 "crates/$1/out/$1" target/command/new 2>/dev/null && mv -f target/command/new "$program" 2>/dev/null ||
        fail "the program is built, and cannot be copied to ${PWD@Q}/target/command"
    find target/command -name "$1-*" ! -path "$program" -delete 2>/dev/null # those of other sources
    return 0
}

# Passes over what rt says, up to its end. Where standard error is a terminal, a line there shows meanwhile how far rt is. The line is
# written over once a second at least, and cleared at the end. rt names each crate where it begins with it, after those below, as in
# `rt: chose --jobs 2 for sets`, and passes over those that are built.
show_progress() {
    local part said='' now='' ready=0 line='' status began=$SECONDS
    [ -t 2 ] || exec cat >/dev/null
    while :; do
        IFS= read -r -t 1 part
        status=$?
        [ "$status" -eq 0 ] || [ "$status" -gt 128 ] || break
        said+=$part
        if [ "$status" -eq 0 ]; then
            case $said in 'rt: chose --jobs '*' for '*) start_crate "${said##* }" ;; esac
            said=''
        fi
        printf '\r%*s' "${#line}" '' >&2
        line="logcheck: $ready of ${#crates[@]} crates are proved${now:+, now $now} ($((SECONDS - began)) s)"
        printf '\r%s' "$line" >&2
    done
    printf '\r%*s\r' "${#line}" '' >&2
}

# Sets show_progress's `now` and `ready`: the crates before it in `crates` are proved.
start_crate() { # NAME
    local crate count=0
    for crate in "${crates[@]}"; do
        if [ "$crate" = "$1" ]; then now=$1 ready=$count; fi
        count=$((count + 1))
    done
}
