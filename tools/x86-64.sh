# Sourced by what links the library's archive, which is for x86-64 Linux. Sets `cc`, `rustc` (with its target's words),
# `run`, what a linked program is started with, `emulator`, and `objdump`. On another processor these are Debian's cross
# compiler with its tools, its Rust with the x86-64 library, and an emulator; those that are missing are installed where
# that can be done. Ends the caller with status 1 and a line that names what is missing, where something still is.

x86_64_rustc() { # the first rustc on the path that has the x86-64 library
    local each
    for each in $(type -ap rustc); do
        if [ -d "$("$each" --print sysroot)/lib/rustlib/x86_64-unknown-linux-gnu/lib" ]; then
            echo "$each"
            return
        fi
    done
}

x86_64_missing() { # what is not there: on x86-64 the commands, elsewhere Debian's packages
    if [ "$(uname -m)" = x86_64 ]; then
        command -v cc >/dev/null || echo cc
        command -v rustc >/dev/null || echo rustc
    else
        command -v x86_64-linux-gnu-gcc >/dev/null || echo gcc-x86-64-linux-gnu
        [ -e "$(x86_64-linux-gnu-gcc -print-file-name=Scrt1.o 2>/dev/null)" ] || echo libc6-dev-amd64-cross
        command -v qemu-x86_64 >/dev/null || echo qemu-user
        [ -n "$(x86_64_rustc)" ] || echo rustc libstd-rust-dev:amd64
        [ -e /lib64/ld-linux-x86-64.so.2 ] || echo libc6:amd64
    fi
}

if [ "$(uname -m)" != x86_64 ] && [ -n "$(x86_64_missing)" ] && [ "$(id -u)" = 0 ] && command -v apt-get >/dev/null; then
    { dpkg --add-architecture amd64 && apt-get update -qq &&
        DEBIAN_FRONTEND=noninteractive apt-get install -qq -y --no-install-recommends $(x86_64_missing); } >&2 || true
fi
if [ -n "$(x86_64_missing)" ]; then
    echo "missing, to link and run x86-64 programs on $(uname -m): $(echo $(x86_64_missing))" >&2
    exit 1
fi
# Without erms the C library clears and copies by vector instructions. By one repeated instruction, as it would with it, the
# emulator goes byte by byte, as no processor does.
emulator=(qemu-x86_64 -cpu max,-erms)
if [ "$(uname -m)" = x86_64 ]; then
    cc=(cc)
    rustc=(rustc)
    objdump=objdump
    run=()
else
    cc=(x86_64-linux-gnu-gcc)
    rustc=("$(x86_64_rustc)" --target x86_64-unknown-linux-gnu -C linker=x86_64-linux-gnu-gcc)
    objdump=x86_64-linux-gnu-objdump
    run=("${emulator[@]}")
fi
