# Builds and runs programs for x86-64 Linux, on any machine: the proved library is made for x86-64 alone. To be sourced; gives
#   x86_ready             whether all that the others need is there
#   x86_setup             makes it ready, and where it cannot, its last line says why
#   x86_cargo WORDS..     cargo, building for x86-64 below target/rust/
#   x86_run PROGRAM ..    runs a program that was built so
#   x86_built             the folder with what cargo built for release
# On x86-64 these are cargo and the program themselves. Elsewhere Debian's cross tools and emulator stand in; a time measured under
# the emulator says nothing.
# shellcheck shell=bash

unset "${!DPKG_@}" # a caller's, for another system's packages
x86_target=x86_64-unknown-linux-gnu

if [ "$(uname -m)" = x86_64 ]; then
    x86_ready() { :; }
    x86_setup() { :; }
    x86_cargo() { CARGO_BUILD_TARGET=$x86_target CARGO_TARGET_DIR=target/rust cargo "$@"; }
    x86_run() { "$@"; }
else
    # rustc and the standard library must be of one version, so both are Debian's.
    x86_packages='cargo rustc libstd-rust-dev libstd-rust-dev:amd64 gcc-x86-64-linux-gnu libc6-dev-amd64-cross qemu-user'

    x86_ready() { # every package is there
        # shellcheck disable=SC2086
        dpkg-query -W -f '${db:Status-Status}\n' $x86_packages 2>/dev/null | awk '$0 != "installed" { exit 1 } END { exit NR == 0 }' &&
            command -v qemu-x86_64 >/dev/null
    }

    x86_apt() { DEBIAN_FRONTEND=noninteractive apt-get -qq -o Acquire::Retries=3 -o DPkg::Lock::Timeout=600 "$@"; }

    x86_install() {
        # shellcheck disable=SC2086
        dpkg --add-architecture amd64 && x86_apt update && x86_apt install -y --no-install-recommends $x86_packages
    }

    # One at a time on this machine, whatever the clone: apt-get fails beside another. The lock is flock's, on dpkg's folder, and ends with
    # this subshell. apt-get does not get it, since what it starts may go on for ever.
    x86_setup() (
        x86_ready && exit 0
        if [ "$(id -u)" -ne 0 ]; then
            echo "Debian's tools for x86-64 are not here, and only root can install them: this machine is $(uname -m)"
            exit 1
        fi
        echo "setting up Debian's tools for x86-64: this machine is $(uname -m)"
        { exec {lock}</var/lib/dpkg || exec {lock}</; } 2>/dev/null
        flock "$lock" 2>/dev/null || :
        x86_ready && exit 0 # another has installed them meanwhile
        log=$(mktemp 2>/dev/null || mktemp -p /tmp 2>/dev/null) || log=/dev/null
        if (exec {lock}<&- && x86_install) </dev/null >"$log" 2>&1; then
            [ "$log" = /dev/null ] || rm -f "$log"
            exit 0
        fi
        tail -n 5 "$log"
        echo "Debian's tools for x86-64 could not be installed: root and Debian's packages are needed ($log has it all)"
        exit 1
    )
    x86_cargo() {
        RUSTC=/usr/bin/rustc CARGO_BUILD_TARGET=$x86_target CARGO_TARGET_DIR=target/rust \
            CARGO_TARGET_X86_64_UNKNOWN_LINUX_GNU_LINKER=x86_64-linux-gnu-gcc /usr/bin/cargo "$@"
    }
    # The plainest processor that has what the kit builds for, x86-64-v2: the C library then fills memory by ordinary stores, which the
    # emulator runs ten times as fast as the string instruction that it would choose for a newer one.
    x86_run() { qemu-x86_64 -cpu Nehalem "$@"; }
fi

x86_built() { echo "target/rust/$x86_target/release"; }
