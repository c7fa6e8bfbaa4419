# Sourced at the root of the repository by rust/test, agree/run and bench/run. Proves and builds libmillettie.a, which is x86-64 code, and says how
# programs that link it are built and run here: sets what cargo reads, CC (the C compiler and its options for the machine) and RUN (what
# runs a program; nothing on x86-64).
#
# On Arm, an x86-64 Rust and C library come out of Debian's packages, unpacked in target/cross; nothing is installed. What is built with them
# is linked statically by the machine's own clang and run by its emulator, qemu-x86_64, both on PATH. That part never ran on an Arm machine,
# and the toolchain of today has no part for one: there rt itself, too, is a program for the emulator.
tools/archive

triple=x86_64-unknown-linux-gnu
export CARGO_BUILD_TARGET=$triple CARGO_TARGET_DIR="$PWD/target/cargo" CARGO_NET_OFFLINE=true
RUN='' CC=${CC:-cc}

# Debian's packages of that architecture, unpacked in a folder: unpacked ARCHITECTURE FOLDER PACKAGE..
unpacked() {
    architecture=$1 folder=$2; shift 2
    for package; do set -- "$@" "$package:$architecture"; shift; done
    (cd "$cross/deb" && apt-get download "$@") >>"$cross/log" 2>&1 || { tail -5 "$cross/log" >&2; return 1; }
    for package in "$cross"/deb/*.deb; do dpkg-deb -x "$package" "$folder"; rm "$package"; done
}

# The first package that a package needs whose name matches.
needed() { apt-cache show "$1" | sed -n 's/^\(Pre-\)\?Depends: //p' | head -1 | tr ',' '\n' | sed 's/^ *//; s/ .*//' | grep "$2" | head -1; }

fetch() {
    host=$(dpkg --print-architecture)
    rm -rf "$cross"; mkdir -p "$cross/deb" "$cross/state/lists/partial" "$cross/cache/archives/partial"; : >"$cross/status"
    cat >"$cross/apt.conf" <<END
APT::Architecture "$host"; APT::Architectures { "$host"; "amd64"; }; APT::Sandbox::User "root";
Dir::State "$cross/state"; Dir::State::status "$cross/status"; Dir::Cache "$cross/cache";
END
    export APT_CONFIG="$cross/apt.conf"
    apt-get update >"$cross/log" 2>&1 || { tail -5 "$cross/log" >&2; return 1; }
    # rustc-web is the recent Rust that Debian keeps for its browsers; elsewhere the plain rustc
    compiler=rustc-web dev=libstd-rust-web-dev
    apt-cache show $compiler >/dev/null 2>&1 || compiler=rustc dev=libstd-rust-dev
    library=$(needed "$dev" '^libstd-rust-'); llvm=$(needed "$library" '^libllvm')
    gcc=$(apt-cache search --names-only '^libgcc-[0-9]+-dev$' | sed 's/ .*//' | sort -V | tail -1)
    unpacked "$host" "$cross/host" "$compiler" "$dev" "$library" ${llvm:+"$llvm"} || return 1
    unpacked amd64 "$cross/x86" "$dev" libc6 libc6-dev linux-libc-dev libgcc-s1 "$gcc" || return 1
    cp -R "$cross/x86/usr/lib/rustlib/$triple" "$cross/host/usr/lib/rustlib/"
    rm -rf "$cross/deb" "$cross/state" "$cross/cache"
}

# A compiler of C and of Rust that make static x86-64 programs. Rust's start-up asks for the main thread's stack, for which the C library
# reads /proc/self/maps, at which one emulator (8.2.2) crashed. Rust goes on without an answer, so the programs get none.
compilers() {
    libraries=$(echo "$cross"/host/usr/lib/*-linux-gnu)
    printf '#!/bin/sh\nLD_LIBRARY_PATH=%s exec %s "$@"\n' "$libraries" "$cross/host/usr/bin/rustc" >"$cross/rustc"
    # headers such as stdbool.h are those of the unpacked C compiler
    printf '#!/bin/sh\nexec %s --target=x86_64-linux-gnu --sysroot=%s -isystem %s -fuse-ld=lld -Wno-unused-command-line-argument "$@"\n' \
        "$(command -v clang)" "$cross/x86" "$(echo "$cross"/x86/usr/lib/gcc/x86_64-linux-gnu/*/include)" >"$cross/cc"
    chmod +x "$cross/rustc" "$cross/cc"
    echo 'int pthread_getattr_np(void *thread, void *attributes) { (void)thread; (void)attributes; return 38; }' >"$cross/no_maps.c"
    "$cross/cc" -c -o "$cross/no_maps.o" "$cross/no_maps.c"
    : >"$cross/ready"
}

if [ "$(uname -m)" != x86_64 ]; then
    cross=$PWD/target/cross
    for tool in clang ld.lld qemu-x86_64; do command -v $tool >/dev/null || { echo "no $tool (apt-get install clang lld qemu-user)" >&2; exit 1; }; done
    [ -e "$cross/ready" ] || { fetch && compilers; } || { echo "no x86-64 Rust to be had: $cross/log" >&2; exit 1; }
    RUN=$(command -v qemu-x86_64) CC="$cross/cc -static"
    export RUSTC="$cross/rustc" RUSTFLAGS="-C target-feature=+crt-static -C link-arg=$cross/no_maps.o" RUST_TEST_THREADS=1
    export CARGO_TARGET_X86_64_UNKNOWN_LINUX_GNU_LINKER="$cross/cc" CARGO_TARGET_X86_64_UNKNOWN_LINUX_GNU_RUNNER="$RUN"
fi
