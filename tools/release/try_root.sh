#!/bin/sh
# Tries a tarball of tools/release.sh where there is nothing else: in a Debian 12 of debootstrap that has a compiler for C alone. There it is unpacked, and a
# host in C is built over the archive, finds the first path, and turns the doors of hosts/world/doors.c; from unpacking to the first path it may take a
# minute. Then the compilers of the other languages are installed, and their hosts are built from what the tarball has and turn the doors too.
#
#     tools/release/try_root.sh TARBALL [BASE]
#
# It wants to be root. All is done in a copy of BASE, the folder of that Debian: where there is none it is made, and it stays; without this word one is made
# and removed. MIRROR names another mirror of Debian.
set -eu
here=$(cd "$(dirname "$0")" && pwd)
mirror=${MIRROR:-http://deb.debian.org/debian}
most_ms=60000

stop() {
    echo "try_root: $*" >&2
    exit 1
}

# Runs a line in that Debian, in the folder where the tarball is. rustc asks /proc for its own name; what is mounted goes with the line.
inside() {
    unshare --mount sh -euc 'mount -t proc proc "$1/proc"; exec chroot "$1" env -i PATH=/usr/sbin:/usr/bin:/sbin:/bin HOME=/try LC_ALL=C.UTF-8 \
        DEBIAN_FRONTEND=noninteractive sh -euc "cd /try && $2"' inside "$root" "$1"
}

has() {
    inside "command -v $1" >"$work/tool" 2>&1
}

now() {
    date +%s%N
}

# turns WHAT LINE: the line, where the tarball was unpacked, builds a host and has it turn the doors.
turns() {
    begun=$(now)
    inside "cd $name && $2" >"$work/told" 2>"$work/errors" || stop "$1: $(tail -n 1 "$work/errors")"
    cmp -s "$work/told" "$here/../../hosts/world/doors.out" || stop "$1 turns the doors in another way"
    echo "$1: $((($(now) - begun) / 1000000)) ms"
}

[ $# -ge 1 ] && [ -f "$1" ] || stop "there is no tarball: tools/release/try_root.sh TARBALL [BASE]"
[ "$(id -u)" = 0 ] || stop "it wants to be root"
name=$(basename "$1" .tar.xz)
work=$(mktemp -d)
trap 'rm -rf "$work"' EXIT
base=${2:-$work/base} root=$work/root
if [ ! -f "$base/etc/debian_version" ]; then
    command -v debootstrap >"$work/tool" || stop "there is no debootstrap"
    debootstrap --variant=minbase --include=gcc,libc6-dev,xz-utils bookworm "$base" "$mirror" >"$work/debootstrap" 2>&1 ||
        stop "debootstrap: $(tail -n 1 "$work/debootstrap")"
fi
cp -a "$base" "$root"
for tool in g++ cargo python3 mcs; do
    ! has $tool || stop "$base has $tool, and is no Debian with a compiler for C alone"
done
mkdir "$root/try"
cp "$1" "$root/try"

begun=$(now)
inside "tar -xJf $name.tar.xz && cd $name && cc -Iinclude first/first.c lib/libnavd.a -o first.out && ./first.out examples/detour.nav" >"$work/told" \
    2>"$work/errors" || stop "the first path: $(tail -n 1 "$work/errors")"
ms=$((($(now) - begun) / 1000000))
[ "$(cat "$work/told")" = "cost 180, 5 links, 2 turns: (144, 64) (144, 96)" ] || stop "the first path is: $(head -n 1 "$work/told")"
echo "from unpacking to the first path: $ms ms"
[ "$ms" -lt "$most_ms" ] || stop "that is more than $most_ms ms"
turns "C" "cc -Iinclude hosts/world/doors.c lib/libnavd.a -lm -o doors && ./doors"
turns "C, the thin layer from source" "cc -Iinclude hosts/world/doors.c hosts/world/navd_world.c lib/libnavd.a -lm -pthread -o doors && ./doors"
turns "C, the shared object" "cc -Iinclude hosts/world/doors.c -Llib -lnavd -lm -o doors && LD_LIBRARY_PATH=lib ./doors"

inside "apt-get update -qq && apt-get install -y -qq --no-install-recommends g++ cargo python3 mono-mcs mono-runtime" >"$work/apt" 2>&1 ||
    stop "apt-get: $(tail -n 1 "$work/apt")"
turns "C++" "g++ -std=c++17 -Iinclude hosts/cpp/doors.cpp lib/libnavd.a -o doors_cpp && ./doors_cpp"
turns "Rust" "cargo build --quiet --offline --manifest-path hosts/rust/Cargo.toml --example doors && hosts/rust/target/debug/examples/doors"
turns "Python" "python3 -B hosts/python/doors.py"
turns "C#" "mcs -out:doors.exe hosts/csharp/Doors.cs hosts/csharp/NavdWorld.cs hosts/csharp/Navd.cs && LD_LIBRARY_PATH=lib mono doors.exe"
