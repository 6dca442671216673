#!/bin/sh
# Makes the release of a built library and program: a tarball, Debian packages, a wheel and a crate. Where something is not as it has to be it says
# so in one line, ends with 1 and leaves no release. It wants that
#
#   - all of it, made twice, is the same bytes
#   - the archive and the shared object export just the calls of include/navd.h and navd_world.h, and tools/header.py --check finds no difference
#   - the types of the headers are those of tools/release/navd.abi (skipped with a line where there is no abidiff, of Debian's abigail-tools)
#   - no symbol of the C library is newer than 2.17, of the program than 2.34; the shared object has at most 600 KB and needs the C library alone
#   - hosts that are built over the packages alone find the first path: in C and C++ by pkg-config, CMake and the Debian packages, in Python by
#     the wheel, in Rust by the crate (skipped with a line where there is no cargo), in C# over the shared object (skipped with a line where
#     there is no Mono); the same hosts turn the doors of hosts/world/doors.c; the program plays that example
#
# tools/release/stops.py tries each of these without the toolchain, and tools/release/try_root.sh the tarball in a Debian that has a compiler alone.
#
#     tools/release.sh [--arch ARCH] [--out DIR] [--archive LIB] [--program NAVD] [--gate FILE] [--new-abi]
#
# --arch     x86_64, or aarch64. Where this machine is of another one it wants a cross compiler (Debian's g++-aarch64-linux-gnu), runs the
#            hosts in C and C++ under qemu-user and no others, makes no crate, and packs a program only where --program names one
# --out      where the release goes; else out/release
# --archive  what `rt lib` of crates/nav_ffi left, --program what `rt run` of crates/navd left; else they are looked for in these crates
# --gate     what the gate wrote; its last line is told in the package
# --new-abi  keeps the types of the headers as what later releases are compared with, in tools/release/navd.abi, and makes no release
#
# A package says of which commit it is, and its dates are the commit's (SOURCE_DATE_EPOCH, where that is set).
set -eu
umask 022
export LC_ALL=C TZ=UTC
unset CPATH C_INCLUDE_PATH CPLUS_INCLUDE_PATH LIBRARY_PATH LD_LIBRARY_PATH PKG_CONFIG_PATH CMAKE_PREFIX_PATH NAVD_LIBRARY NAVD_LIBRARY_DIR PYTHONPATH

top=$(cd "$(dirname "$0")/.." && pwd)
parts=$top/tools/release
out=$top/out/release
archive=$top/crates/nav_ffi/out/libnav_ffi.a
program=
arch=x86_64
gate=
new_abi=

# What the wheel's tag and the packages promise: no symbol of the C library is newer. The program has the start files of its toolchain.
glibc=2.17
program_glibc=2.34
soname=libnavd.so.0

stop() {
    echo "release: $*" >&2
    exit 1
}

. "$parts/make.sh"
. "$parts/check.sh"

read_words() {
    while [ $# -gt 0 ]; do
        case $1 in
            --new-abi) new_abi=yes; shift; continue ;;
            --arch | --out | --archive | --program | --gate) [ $# -gt 1 ] || stop "$1 wants a name" ;;
            *) stop "$1 is no word of this; the head of tools/release.sh has them" ;;
        esac
        case $1 in
            --arch) arch=$2 ;;
            --out) out=$(realpath -m "$2") ;;
            --archive) archive=$(realpath -m "$2") ;;
            --program) program=$(realpath -m "$2") ;;
            --gate) gate=$(realpath -m "$2") ;;
        esac
        shift 2
    done
}

# What the architecture is called; and, where this machine is of another one, what its tools begin with and what runs its programs.
find_arch() {
    case $arch in
        x86_64) debian=amd64 processor="an x86-64 processor with SSE4.2 and POPCNT (x86-64-v2)" ;;
        aarch64) debian=arm64 processor="a 64-bit ARM processor" ;;
        *) stop "$arch is neither x86_64 nor aarch64" ;;
    esac
    triplet=$arch-linux-gnu tools='' run='' cross=''
    if [ "$(uname -m)" = "$arch" ]; then
        cc=${CC:-cc} cxx=${CXX:-c++} program=${program:-$top/crates/navd/out/navd}
    else
        cross=yes tools=$triplet- run="qemu-$arch -L /usr/$triplet"
        cc=${CC:-${tools}gcc} cxx=${CXX:-${tools}g++}
    fi
}

find_tools() {
    for tool in git python3 "$cc" "$cxx" ${run%% *} "${tools}ar" "${tools}nm" "${tools}objcopy" "${tools}objdump" "${tools}readelf" \
        tar xz gzip sha256sum dpkg-deb pkg-config cmake; do
        command -v "$tool" >/dev/null || stop "there is no $tool"
    done
}

find_inputs() {
    [ -f "$archive" ] || stop "there is no archive $archive: cd crates/nav_ffi && rt lib"
    [ -z "$program" ] || [ -f "$program" ] || stop "there is no program $program: cd crates/navd && rt run"
    [ -z "$gate" ] || [ -f "$gate" ] || stop "there is no file $gate"
}

# The version stands in a file, and the places that have to say it for themselves agree with it.
find_version() {
    version=$(cat "$top/VERSION")
    series=${version%.*}
    grep -qx "version = \"$version\"" "$top/hosts/rust/Cargo.toml" || stop "hosts/rust/Cargo.toml has another version than VERSION, $version"
    grep -q "^## $version\b" "$top/CHANGELOG.md" || stop "CHANGELOG.md has no heading for $version"
    number=$(echo "$version" | awk -F. '{ print $1 * 10000 + $2 * 100 + $3 }')
    grep -qx "#define NAVD_VERSION ${number}u" "$top/include/navd.h" || stop "include/navd.h has another version than VERSION, $version"
    name=navd-$version
    SOURCE_DATE_EPOCH=${SOURCE_DATE_EPOCH:-$(git -C "$top" log -1 --format=%ct)}
    export SOURCE_DATE_EPOCH
}

main() {
    read_words "$@"
    find_arch
    find_tools
    find_version
    work=$(mktemp -d)
    trap 'rm -rf "$work"' EXIT
    if [ "$new_abi" ]; then
        keep_abi
        return
    fi
    find_inputs
    check_header
    make_release "$work/one"
    make_release "$work/other"
    cmp -s "$work/one/out/SHA256SUMS" "$work/other/out/SHA256SUMS" || stop "two releases of the same files are not the same bytes"
    check_release "$work/one"
    mkdir -p "$out"
    cp "$work/one/out/"* "$out"
    (cd "$out" && ls -l $(cut -c67- SHA256SUMS) | awk '{ print $5, $9 }')
    echo "the release is in $out"
}

main "$@"
