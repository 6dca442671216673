# What tools/release.sh wants of a release before it hands one out. Each of these stops where it does not find that.

first_path='cost 180, 5 links, 2 turns: (144, 64) (144, 96)'

# == The header ==

check_header() {
    python3 "$top/tools/header.py" --check >"$work/header" 2>&1 || stop "tools/header.py --check: $(head -n 1 "$work/header")"
}

# The library has no debug data of its own: the types are those of a stub that is made of the headers.
make_stub() {
    python3 "$parts/exports.py" stub >"$work/stub.c"
    "$cc" -g -O0 -shared -fPIC -ffile-prefix-map="$work=." -ffile-prefix-map="$top=." -I"$top/include" -Wl,-soname,$soname \
        -o "$work/stub.so" "$work/stub.c"
}

keep_abi() {
    command -v abidw >/dev/null || stop "there is no abidw (Debian's abigail-tools)"
    make_stub
    abidw --no-show-locs --no-corpus-path --no-comp-dir-path --out-file "$parts/navd.abi" "$work/stub.so"
    echo "the types of the headers are in tools/release/navd.abi"
}

check_abi() {
    if ! command -v abidiff >/dev/null; then
        echo "skipped, there is no abidiff (Debian's abigail-tools): the types of the headers against those of tools/release/navd.abi"
        return
    fi
    make_stub
    abidiff --no-architecture "$parts/navd.abi" "$work/stub.so" >"$work/abi" 2>&1 ||
        stop "the headers have other types than tools/release/navd.abi: $(grep . "$work/abi" | head -n 1)"
}

# == The libraries ==

same_names() {
    cmp -s "$work/names" "$work/found" ||
        stop "$1 does not export just the calls of the headers: $(diff "$work/names" "$work/found" | grep '^[<>]' | tr '\n' ' ')"
}

check_exports() {
    python3 "$parts/exports.py" names >"$work/names"
    "${tools}nm" -D --defined-only "$1/lib/libnavd.so.$version" | awk '$2 != "A" { sub("@.*", "", $3); print $3 }' | sort >"$work/found"
    same_names libnavd.so
    "${tools}nm" --defined-only --extern-only "$1/lib/libnavd.a" | awk 'NF == 3 && $2 != "W" { print $3 }' | sort >"$work/found"
    same_names libnavd.a
}

check_shared() {
    "${tools}readelf" -dW "$1/lib/libnavd.so.$version" >"$work/dynamic"
    grep -q "SONAME.*\[$soname\]" "$work/dynamic" || stop "the shared object has not the name $soname"
    grep -q 'FLAGS.*NOW' "$work/dynamic" || stop "the shared object is not bound at its start"
    "${tools}readelf" -lW "$1/lib/libnavd.so.$version" | grep -q GNU_RELRO ||
        stop "the shared object has no part that is read only once it is bound"
    size=$(wc -c <"$1/lib/libnavd.so.$version")
    [ "$size" -le 614400 ] || stop "the shared object has $size bytes, more than 600 KB"
}

# The Debian packages name the C library alone as what they depend on.
check_needed() {
    others=$("${tools}readelf" -dW "$1" | grep NEEDED | grep -v '\[libc\.so\.6\]' | grep -o '\[.*\]') || return 0
    stop "$(basename "$1") needs more than the C library: $(echo "$others" | tr '\n' ' ')"
}

newest_glibc() {
    "${tools}objdump" -T "$1" | grep -o 'GLIBC_[0-9.]*' | cut -c7- | sort -Vu | tail -n 1
}

# check_glibc FILE LIMIT
check_glibc() {
    newest=$(newest_glibc "$1")
    [ "$(printf '%s\n%s\n' "$newest" "$2" | sort -V | tail -n 1)" = "$2" ] || stop "$(basename "$1") wants GLIBC_$newest, newer than GLIBC_$2"
}

# == The programs ==

# says WHAT COMMAND..: the command finds the first path.
says() {
    what=$1
    shift
    "$@" "$package/examples/detour.nav" >"$work/told" 2>"$work/errors" || stop "the first path $what: $(tail -n 1 "$work/errors")"
    [ "$(cat "$work/told")" = "$first_path" ] || stop "the first path $what is: $(head -n 1 "$work/told")"
}

# turns WHAT COMMAND..: the command turns the doors.
turns() {
    what=$1
    shift
    "$@" >"$work/told" 2>"$work/errors" || stop "the doors $what: $(tail -n 1 "$work/errors")"
    cmp -s "$work/told" "$package/hosts/world/doors.out" || stop "the doors $what: $(diff "$package/hosts/world/doors.out" "$work/told" | head -n 2 | tail -n 1)"
}

# builds WHAT COMMAND..
builds() {
    what=$1
    shift
    "$@" >"$work/errors" 2>&1 || stop "$what does not build: $(grep -i error "$work/errors" | head -n 1)"
}

now() {
    date +%s%N
}

# From here on nothing is taken but what lies in the release: it is unpacked into an empty folder.
check_tarball() {
    mkdir "$work/first"
    cd "$work/first"
    begun=$(now)
    tar -xJf "$1/out/$name-linux-$arch.tar.xz"
    package=$work/first/$name-linux-$arch
    builds "C over the archive" "$cc" -std=c11 -Wall -Wextra -Wpedantic -Werror -I"$package/include" "$package/first/first.c" \
        "$package/lib/libnavd.a" -o plain
    says "in C over the archive" $run ./plain
    echo "from unpacking to the first path: $((($(now) - begun) / 1000000)) ms"
    builds "worlds in C over the archive" "$cc" -std=c11 -Wall -Wextra -Wpedantic -Werror -I"$package/include" "$package/hosts/world/doors.c" \
        "$package/lib/libnavd.a" -lm -o doors
    turns "in C over the archive" $run ./doors
    (cd "$package" && sha256sum --quiet -c SHA256SUMS) || stop "SHA256SUMS of the tarball is wrong"
    [ "$program" ] || return 0
    $run "$package/bin/navd" play <"$package/examples/detour.nav" >played || stop "bin/navd does not play examples/detour.nav"
    cmp -s played "$package/examples/detour.out" || stop "bin/navd plays examples/detour.nav in another way"
}

check_pkg_config() {
    builds "C by pkg-config" "$cc" "$package/first/first.c" -o shared $(PKG_CONFIG_PATH=$package/lib/pkgconfig pkg-config --cflags --libs navd)
    says "in C by pkg-config" env LD_LIBRARY_PATH="$package/lib" $run ./shared
    builds "worlds in C++ by pkg-config" "$cxx" -std=c++17 "$package/hosts/cpp/doors.cpp" -o doors_cpp \
        $(PKG_CONFIG_PATH=$package/lib/pkgconfig pkg-config --cflags --libs navd)
    turns "in C++ by pkg-config" env LD_LIBRARY_PATH="$package/lib" $run ./doors_cpp
}

check_cmake() {
    builds "CMake's project" cmake -S "$package/first" -B built -DCMAKE_PREFIX_PATH="$package" \
        ${cross:+-DCMAKE_SYSTEM_NAME=Linux -DCMAKE_C_COMPILER=$cc -DCMAKE_CXX_COMPILER=$cxx}
    builds "C and C++ by CMake" cmake --build built
    says "in C by CMake" $run built/first_c
    says "in C++ by CMake" $run built/first_cpp
    says "in C over the archive by CMake" $run built/first_static
}

check_debian() {
    for made in "$1"/out/*.deb; do
        dpkg-deb -x "$made" debian
    done
    found=debian/usr/lib/$triplet
    builds "C over the Debian packages" "$cc" "$package/first/first.c" -o debian/first \
        $(PKG_CONFIG_PATH=$found/pkgconfig pkg-config --cflags --libs navd)
    says "in C over the Debian packages" env LD_LIBRARY_PATH="$found" $run debian/first
    builds "worlds in C over the Debian packages" "$cc" "$package/hosts/world/doors.c" -o debian/doors \
        $(PKG_CONFIG_PATH=$found/pkgconfig pkg-config --cflags --libs navd) -lm
    turns "in C over the Debian packages" env LD_LIBRARY_PATH="$found" $run debian/doors
}

check_python() {
    python3 -m zipfile -e "$1"/out/*.whl wheel
    says "in Python by the wheel" env PYTHONPATH=wheel python3 -B "$package/first/first.py"
    says "in Python by the tarball" env PYTHONPATH="$package/hosts/python" python3 -B "$package/first/first.py"
    cp "$package/hosts/python/doors.py" wheel
    turns "in Python by the wheel" python3 -B wheel/doors.py
    turns "in Python by the tarball" python3 -B "$package/hosts/python/doors.py"
}

check_csharp() {
    if ! command -v mcs >/dev/null || ! command -v mono >/dev/null; then
        echo "skipped, there is no Mono: the first path in C#"
        return
    fi
    builds "C#" mcs -out:first.exe "$package/first/first.cs" "$package/hosts/csharp/Navd.cs"
    says "in C#" env LD_LIBRARY_PATH="$package/lib" mono first.exe
    builds "worlds in C#" mcs -out:doors.exe "$package/hosts/csharp/Doors.cs" "$package/hosts/csharp/NavdWorld.cs" "$package/hosts/csharp/Navd.cs"
    turns "in C#" env LD_LIBRARY_PATH="$package/lib" mono doors.exe
}

check_rust() {
    if ! command -v cargo >/dev/null; then
        echo "skipped, there is no cargo: the first path in Rust"
        return
    fi
    tar -xzf "$1/out/$name.crate"
    builds "the crate" cargo build --quiet --offline --manifest-path "$name/Cargo.toml" --examples
    says "in Rust by the crate" "$name/target/debug/examples/first"
    turns "in Rust by the crate" "$name/target/debug/examples/doors"
}

check_release() {
    check_exports "$1"
    check_shared "$1"
    check_glibc "$1/lib/libnavd.so.$version" $glibc
    [ -z "$program" ] || check_glibc "$program" $program_glibc
    check_needed "$1/lib/libnavd.so.$version"
    [ -z "$program" ] || check_needed "$program"
    check_abi
    check_tarball "$1"
    check_pkg_config
    check_cmake
    check_debian "$1"
    if [ "$cross" ]; then
        echo "skipped, this machine is no $arch: the first path in Python, C# and Rust"
    else
        check_python "$1"
        check_csharp
        check_rust "$1"
    fi
    cd "$top"
}
