# Sourced by setup.sh and in_c.sh on a machine that is not x86-64, because the archives are for x86-64 alone: a Rust
# compiler with its library for x86-64, a C compiler, which links, and an emulator. They are Debian's packages, unpacked into a cache, not installed.
CROSS=${XDG_CACHE_HOME:-$HOME/.cache}/chherbolat/cross
TREE=$CROSS/root

apt_for_cross() { # PROGRAM ARGUMENTS...: with a state of its own, in which nothing is installed
    "$1" -o Dir::State="$CROSS/apt" -o Dir::State::status="$CROSS/apt/status" -o Dir::Cache="$CROSS/apt/cache" \
        -o APT::Architectures::="$(dpkg --print-architecture)" -o APT::Architectures::=amd64 \
        -o Debug::NoLocking=1 --quiet "${@:2}"
}

fetch() {
    rm -rf "$CROSS"
    mkdir -p "$CROSS/apt/lists/partial" "$CROSS/apt/cache/archives/partial" "$TREE"
    touch "$CROSS/apt/status"
    apt_for_cross apt-get update
    local compiler_library
    compiler_library=$(apt_for_cross apt-cache pkgnames libgcc- | grep -xE 'libgcc-[0-9]+-dev' | sort -V | tail -1)
    apt_for_cross apt-get --yes --download-only --no-install-recommends install rustc-web clang lld qemu-user-static \
        libstd-rust-web-dev:amd64 libc6-dev:amd64 "$compiler_library:amd64"
}

unpack() {
    local package
    for package in "$CROSS"/apt/cache/archives/*.deb; do
        case $package in
        */libc6_*_amd64.deb) ;;
        */libc6_*) continue ;; # the machine's own stays the only one for its programs
        esac
        dpkg-deb --extract "$package" "$TREE" || return
    done
    rm -rf "$CROSS/apt"
    find "$TREE/usr/bin" -name 'qemu-*' ! -name qemu-x86_64-static -delete
    # This link is absolute in its package.
    ln -sf ../lib/x86_64-linux-gnu/ld-linux-x86-64.so.2 "$TREE/lib64/ld-linux-x86-64.so.2"
}

wrap_compiler() {
    local libraries
    libraries=$(printf '%s:' "$TREE/usr/lib/$(uname -m)-linux-gnu" "$TREE"/usr/lib/llvm-*/lib)
    printf '#!/bin/sh\nLD_LIBRARY_PATH=%s exec %s "$@"\n' "$libraries" "$TREE/usr/bin/rustc" >"$CROSS/rustc"
    chmod +x "$CROSS/rustc"
}

# cfg_select is in Rust since 1.95, and the driver uses it.
works() {
    echo 'fn main() { cfg_select! { _ => {} } }' >"$CROSS/probe.rs"
    "$RUSTC" --target "$CARGO_BUILD_TARGET" -C linker="$CARGO_TARGET_X86_64_UNKNOWN_LINUX_GNU_LINKER" \
        "${link_flags[@]}" -o "$CROSS/probe" "$CROSS/probe.rs" &&
        "${EMULATOR[@]}" "$CROSS/probe"
}

link_flags=(-C link-arg=--target=x86_64-linux-gnu -C link-arg=-fuse-ld=lld -C "link-arg=--sysroot=$TREE")
# The linker is named where nothing is linked, too.
CC=("$TREE/usr/bin/clang" --target=x86_64-linux-gnu -fuse-ld=lld "--sysroot=$TREE" -Wno-unused-command-line-argument)
EMULATOR=("$TREE/usr/bin/qemu-x86_64-static" -L "$TREE")
export RUSTC=$CROSS/rustc
export CARGO_BUILD_TARGET=x86_64-unknown-linux-gnu
export CARGO_TARGET_X86_64_UNKNOWN_LINUX_GNU_LINKER=$TREE/usr/bin/clang
export CARGO_TARGET_X86_64_UNKNOWN_LINUX_GNU_RUSTFLAGS=${link_flags[*]}
export CARGO_TARGET_X86_64_UNKNOWN_LINUX_GNU_RUNNER=${EMULATOR[*]}

if [ ! -e "$CROSS/works" ]; then
    echo "host: fetching Debian's packages for x86-64, once, into $CROSS" >&2
    mkdir -p "$(dirname "$CROSS")"
    { fetch && unpack && wrap_compiler && works && touch "$CROSS/works"; } >"$CROSS.log" 2>&1 ||
        lack "this machine is not x86-64, and what builds and runs for it is not to be had (see $CROSS.log)"
fi
