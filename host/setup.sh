#!/bin/sh
# Sets up what the host programs are built with, from Debian's packages, and says what it installs. Where all is there it does nothing.
# On x86-64 these are gcc, g++ and rustc. On Arm they are those that make x86-64 programs, since the archive is x86-64: the kit's emulator runs them, where
# it has one. On both pkg-config tells a C compiler where an installed library is.
set -eu
packages=''

need() { # FILE-OR-COMMAND PACKAGE..: the packages, where the first is not there
    case $1 in
    /*) [ -e "$1" ] && return ;;
    *) command -v "$1" >/dev/null && return ;;
    esac
    shift
    packages="$packages $*"
}

need pkg-config pkgconf
case $(uname -m) in
x86_64)
    need gcc gcc libc6-dev
    need g++ g++
    need rustc rustc
    ;;
aarch64)
    need x86_64-linux-gnu-gcc gcc-x86-64-linux-gnu
    need x86_64-linux-gnu-g++ g++-x86-64-linux-gnu
    need /usr/x86_64-linux-gnu/lib/libc.a libc6-dev-amd64-cross
    need /usr/bin/rustc rustc
    need /usr/lib/rustlib/x86_64-unknown-linux-gnu/lib libstd-rust-dev:amd64
    ;;
*)
    echo "setup: no way is known to build x86-64 programs on $(uname -m)" >&2
    exit 1
    ;;
esac

[ -n "$packages" ] || exit 0
echo "setup: installing from Debian:$packages"
case $packages in
*:amd64*) dpkg --add-architecture amd64 ;;
esac
export DEBIAN_FRONTEND=noninteractive
apt-get -q update
# the names are words, and none has a space in it
# shellcheck disable=SC2086
apt-get -q -y install --no-install-recommends $packages
