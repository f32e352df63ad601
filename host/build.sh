#!/bin/sh
# Builds the comparison host and runs it, for the gate: host/build.sh [subcommand and options]; by itself it compares 20,000 files.
# With crate capi listed, the proved archive is built and linked, and the C program is run first; else the rebuild is compared with
# itself in tables. `host/build.sh tests` runs the host's own tests. The archive is x86-64: on aarch64 Rust and C are cross-built with
# Debian's rustc and emulated. What is missing is installed by its Debian name; where that can't be done, one line says that nothing is compared.
set -u
from=$PWD
here=$(cd "$(dirname "$0")" && pwd) || exit 1
root=$(dirname "$here")
archives=$root/crates/capi/out
packages="rustc libstd-rust-dev:amd64 gcc-x86-64-linux-gnu libc6-dev-amd64-cross qemu-user"
[ $# -gt 0 ] || set -- compare --files 20000 --seed 1

fail() { echo "host: $*"; exit 1; }

# neither the machine's own compiler nor an emulator can be had: no failure of ours, and no comparison either
absent() { echo "host: NOTHING IS COMPARED: $*"; echo "0 passed, 0 failed"; exit 0; }

install() {
    command -v apt-get >/dev/null || absent "no apt-get to install $* with"
    export DEBIAN_FRONTEND=noninteractive
    { apt-get update && apt-get install -y --no-install-recommends "$@"; } >"$here/target/install.log" 2>&1 || absent "$* can't be installed"
}

# a command, and the packages that give it
need() {
    command -v "$1" >/dev/null && return
    shift
    install "$@"
}

# Debian's own compiler for amd64, with what it links against and runs under
need_cross() {
    command -v qemu-x86_64 >/dev/null && command -v x86_64-linux-gnu-gcc >/dev/null && dpkg -L rustc libstd-rust-dev:amd64 >/dev/null 2>&1 && return
    dpkg --add-architecture amd64 2>/dev/null || absent "amd64 can't be added as an architecture"
    # shellcheck disable=SC2086
    install $packages
}

# sets `built`; cargo finds the archive by build.rs
build() {
    case $machine$port in
        x86_64) cargo build --release --offline --quiet && built=target/release/brasstally-host ;;
        x86_64yes) cargo build --release --offline --quiet --features port && built=target/release/brasstally-host ;;
        aarch64) rustc -O --edition 2021 src/main.rs -o target/host && built=target/host ;;
        *) "$(dpkg -L rustc | grep 'bin/rustc$')" -O --edition 2021 --cfg 'feature="port"' --target x86_64-unknown-linux-gnu \
            -C linker=x86_64-linux-gnu-gcc src/main.rs -o target/host -L native="$archives" && built=target/host ;;
    esac
}

# a share of the cases for each core, as processes: an emulated program's threads are slow. The last line adds up the shares' last lines
compare() {
    shares=$(nproc) share=0 passed=0 failed=0
    while [ "$share" -lt "$shares" ]; do
        $run "$here/$built" "$@" --share "$share/$shares" >"target/share-$share.log" 2>&1 &
        share=$((share + 1))
    done
    wait
    while [ "$share" -gt 0 ]; do
        share=$((share - 1))
        cat "target/share-$share.log"
        counts=$(tail -n 1 "target/share-$share.log" | grep -x '[0-9]* passed, [0-9]* failed') || counts='0 passed, 1 failed'
        passed=$((passed + ${counts%% *})) counts=${counts#*, } failed=$((failed + ${counts%% *}))
    done
    echo "$passed passed, $failed failed"
    [ "$failed" -eq 0 ]
}

machine=$(uname -m) port='' cc=gcc run=''
mkdir -p "$here/target" && cd "$here" || exit 1
grep -q "^capi[ :]" "$root/crates.txt" 2>/dev/null && port=yes
[ "$1" = tests ] && port=''
case $machine$port in
    x86_64*) need rustc rustc; need cargo cargo; need gcc gcc libc6-dev ;;
    aarch64) need rustc rustc; need gcc gcc libc6-dev ;;
    aarch64yes) need_cross; cc=x86_64-linux-gnu-gcc run=qemu-x86_64 ;;
    *) absent "no way to build on $machine" ;;
esac

if [ "$1" = tests ]; then
    rustc -O --edition 2021 --test src/main.rs -o target/host-tests || fail "the tests can't be built"
    exec target/host-tests
fi
if [ -n "$port" ]; then
    (cd "$root/crates/capi" && rt lib) >target/staticlib.log 2>&1 || fail "the archive of crate capi can't be built, see host/target/staticlib.log"
    $cc -std=c99 -pedantic -Wall -Wextra -Werror -Iinclude c/smoke.c "$archives/libcapi.a" -o target/smoke || fail "the C program can't be built"
    $run target/smoke || fail "the C program failed"
fi
build || fail "the host can't be built"
[ "$1" = compare ] && { compare "$@"; exit; }
[ "$1" = sample ] && cd "$from" # its directory is named from where the caller stands
exec $run "$here/$built" "$@"
