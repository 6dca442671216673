# What tools/release.sh makes. Each function is handed the folder in which it works: lib/ has the libraries, trees/ what is packed, out/ the release.

# A file of this folder, with its words filled in. The third word leads from the folder of the libraries to that above include/.
filled() {
    sed -e "s/@VERSION@/$version/g" -e "s/@SERIES@/$series/g" -e "s/@GLIBC@/$glibc/g" -e "s/@PROGRAM_GLIBC@/$program_glibc/g" -e "s,@UP@,${3-},g" \
        -e "s/@PROCESSOR@/$processor/g" \
        "$parts/$1" >"$2"
}

# tracked FROM TO FILE..: copies what git has of these below a folder of the repository, and nothing that was built beside it.
tracked() {
    from=$top/$1
    to=$2
    shift 2
    mkdir -p "$to"
    git -C "$from" ls-files -z "$@" | tar --create --directory "$from" --null --files-from=- | tar --extract --directory "$to"
}

# All files have the date of the commit, and modes that do not depend on who made them.
same_everywhere() {
    chmod -R u=rwX,go=rX "$1"
    find "$1" -exec touch -h -d "@$SOURCE_DATE_EPOCH" {} +
}

packed() {
    tar --create --directory "$1" --sort=name --format=ustar --owner=0 --group=0 --numeric-owner --mode=u=rwX,go=rX --mtime="@$SOURCE_DATE_EPOCH" "$2"
}

# == The libraries ==

# The archive, and beside its objects the calls of navd_world.h, and the memory over malloc, whose functions are weak: a host's own stand in their place.
make_archive() {
    mkdir -p "$1/lib" "$1/objects"
    [ -z "$("${tools}ar" t "$archive" | sort | uniq -d)" ] || stop "two objects of the archive have one name"
    (cd "$1/objects" && "${tools}ar" x "$archive")
    "$cc" -std=c11 -O2 -fPIC -fvisibility=hidden -ffile-prefix-map="$top=." -c "$top/hosts/c/heap.c" -o "$1/objects/navd_heap.o"
    "${tools}objcopy" --weaken "$1/objects/navd_heap.o"
    "$cc" -std=c11 -Os -fPIC -ffile-prefix-map="$top=." -I"$top/include" -c "$top/hosts/world/navd_world.c" -o "$1/objects/navd_world.o"
    (cd "$1/objects" && "${tools}ar" rcsD "$1/lib/libnavd.a" $(ls | sort))
}

# The shared object, and beside it the names that a debugger wants.
make_shared() {
    # one copy of functions that are alike, where there is a linker that finds them
    folds=
    ! command -v "${tools}ld.gold" >"$work/tool" || folds="-fuse-ld=gold -Wl,--icf=safe"
    ! command -v ld.lld >"$work/tool" || folds="-fuse-ld=lld -Wl,--icf=safe"
    python3 "$parts/exports.py" script >"$1/exports.map"
    "$cc" -shared $folds -o "$1/lib/whole.so" -Wl,--whole-archive "$1/lib/libnavd.a" -Wl,--no-whole-archive -Wl,-soname,$soname \
        -Wl,--version-script="$1/exports.map" -Wl,-z,relro,-z,now,-z,noexecstack,-z,defs,-z,text -Wl,--gc-sections,--as-needed,--build-id=sha1 \
        2>"$1/errors" || stop "the shared object does not link: $(head -n 1 "$1/errors")"
    "${tools}objcopy" --only-keep-debug "$1/lib/whole.so" "$1/lib/libnavd.so.$version.debug"
    (cd "$1/lib" && "${tools}objcopy" --strip-all --add-gnu-debuglink="libnavd.so.$version.debug" whole.so "libnavd.so.$version")
    rm "$1/lib/whole.so"
    chmod 644 "$1"/lib/*
}

# lay_shared DIR TREE LIB: the shared object where TREE has its libraries.
lay_shared() {
    mkdir -p "$2/$3"
    cp "$1/lib/libnavd.so.$version" "$2/$3"
    ln -s "libnavd.so.$version" "$2/$3/$soname"
}

# lay_static DIR TREE LIB UP: what hosts are built with. UP leads from the folder of the libraries to that above include/.
lay_static() {
    mkdir -p "$2/$3/pkgconfig" "$2/$3/cmake/navd" "$2/$3/$4/include"
    cp "$top/include/navd.h" "$top/include/navd_world.h" "$top/hosts/cpp/navd.hpp" "$top/hosts/cpp/navd_world.hpp" "$2/$3/$4/include"
    cp "$1/lib/libnavd.a" "$2/$3"
    ln -s "$soname" "$2/$3/libnavd.so"
    filled navd.pc.in "$2/$3/pkgconfig/navd.pc" "$4"
    filled navd-config.cmake.in "$2/$3/cmake/navd/navd-config.cmake" "$4"
    filled navd-config-version.cmake.in "$2/$3/cmake/navd/navd-config-version.cmake" "$4"
}

# == The tarball ==

told_build() {
    changed=$(git -C "$top" status --porcelain --untracked-files=no)
    echo "navd $version, packed at the commit $(git -C "$top" rev-parse HEAD)${changed:+, with changes}"
    echo "the archive that rt lib left: $(sha256sum <"$archive" | cut -c1-64)"
    [ -z "$program" ] || echo "the program that rt run left: $(sha256sum <"$program" | cut -c1-64)"
    command -v rt >/dev/null && echo "rt version: $(rt version)"
    echo "compiler of the shared object: $("$cc" --version | head -n 1)"
    [ -z "$gate" ] || echo "last line of the gate: $(tail -n 1 "$gate")"
}

lay_documents() {
    cp "$top/LICENSE" "$top/LICENSE-MIT" "$top/LICENSE-APACHE" "$top/CHANGELOG.md" "$1"
}

lay_first() {
    mkdir -p "$1/first"
    for file in first.c first.cpp first.cs first.py first.rs CMakeLists.txt; do
        filled "first/$file" "$1/first/$file"
    done
    tracked examples "$1/examples" '*.nav' '*.out'
}

lay_hosts() {
    tracked hosts "$1/hosts" ':!*.gitignore'
    [ "$arch" = x86_64 ] || sed -i "s/x86_64/$arch/g" "$1/hosts/rust/build.rs"
    tracked docs "$1/docs" EMBEDDING.md FORMATS.md
    ln -s "../../lib/$soname" "$1/hosts/python/libnavd.so"
}

make_tarball() {
    full=$name-linux-$arch
    tree=$1/trees/$full
    mkdir -p "$tree/lib/.debug"
    lay_shared "$1" "$tree" lib
    lay_static "$1" "$tree" lib ..
    cp "$1/lib/libnavd.so.$version.debug" "$tree/lib/.debug"
    lay_documents "$tree"
    lay_first "$tree"
    lay_hosts "$tree"
    filled package.md "$tree/README.md"
    if [ "$program" ]; then
        mkdir "$tree/bin"
        cp "$program" "$tree/bin/navd"
        chmod 755 "$tree/bin/navd"
    else
        sed -i '/`bin/d' "$tree/README.md"
    fi
    told_build >"$tree/BUILD.txt"
    (cd "$tree" && find . -type f | sort | xargs sha256sum >"$1/sums" && mv "$1/sums" SHA256SUMS)
    packed "$1/trees" "$full" | xz --threads=1 -9e >"$1/out/$full.tar.xz"
}

# == Debian packages ==

debian_documents() {
    documents=$1/usr/share/doc/$2
    mkdir -p "$documents"
    {
        echo "Format: https://www.debian.org/doc/packaging-manuals/copyright-format/1.0/"
        printf '\nFiles: *\nCopyright: 2026 the authors of navd\nLicense: Expat or Apache-2.0\n'
        printf '\nLicense: Expat\n'
        sed -e '1,4d' -e 's/^$/./' -e 's/^/ /' "$top/LICENSE-MIT"
        printf '\nLicense: Apache-2.0\n On Debian systems its text is in /usr/share/common-licenses/Apache-2.0.\n'
    } >"$documents/copyright"
    printf 'navd (%s) unstable; urgency=low\n\n  * CHANGELOG.md of the source has the changes.\n\n -- %s  %s\n' \
        "$version" "$maintainer" "$(date -R -d "@$SOURCE_DATE_EPOCH")" | gzip -n9 >"$documents/changelog.gz"
}

# deb DIR NAME SECTION DEPENDS WHAT MORE: packs what lies in DIR/debs/NAME.
deb() {
    root=$1/debs/$2
    mkdir -p "$root/DEBIAN"
    debian_documents "$root" "$2"
    size=$(find "$root/usr" -type f -printf '%s\n' | awk '{ all += $1 } END { print int((all + 1023) / 1024) }')
    {
        printf 'Package: %s\nSource: navd\nVersion: %s\nArchitecture: %s\nMaintainer: %s\n' "$2" "$version" "$debian" "$maintainer"
        printf 'Installed-Size: %s\nDepends: %s\nSection: %s\nPriority: optional\n%s' "$size" "$4" "$3" "${6-}"
        printf 'Description: %s\n A level is opened from a text, obstacles come and go, paths and rays\n come out. Its functions are proved.\n' "$5"
    } >"$root/DEBIAN/control"
    (cd "$root" && find usr -type f | sort | xargs md5sum >DEBIAN/md5sums)
    same_everywhere "$root"
    dpkg-deb --root-owner-group --threads-max=1 -Zxz --build "$root" "$1/out/${2}_${version}_$debian.deb" >"$1/dpkg.txt" ||
        stop "dpkg-deb failed on $2"
}

make_runtime_deb() {
    lay_shared "$1" "$1/debs/libnavd0" usr/lib/$triplet
    mkdir -p "$1/debs/libnavd0/DEBIAN"
    echo "libnavd 0 libnavd0 (>= $version)" >"$1/debs/libnavd0/DEBIAN/shlibs"
    echo "activate-noawait ldconfig" >"$1/debs/libnavd0/DEBIAN/triggers"
    {
        echo "$soname libnavd0 #MINVER#"
        echo " NAVD_0@NAVD_0 $version"
        python3 "$parts/exports.py" names | sed "s/.*/ &@NAVD_0 $version/"
    } >"$1/debs/libnavd0/DEBIAN/symbols"
    deb "$1" libnavd0 libs "libc6 (>= $glibc)" "proved navigation-mesh server core, shared library" "Multi-Arch: same
"
}

make_debs() {
    maintainer=$(git -C "$top" log -1 --format='%an <%ae>')
    make_runtime_deb "$1"
    lay_static "$1" "$1/debs/libnavd-dev" usr/lib/$triplet ../..
    lay_first "$1/debs/libnavd-dev/usr/share/doc/libnavd-dev"
    deb "$1" libnavd-dev libdevel "libnavd0 (= $version)" "proved navigation-mesh server core, for building hosts" "Multi-Arch: same
"
    [ "$program" ] || return 0
    mkdir -p "$1/debs/navd/usr/bin"
    "${tools}objcopy" --strip-all "$program" "$1/debs/navd/usr/bin/navd"
    chmod 755 "$1/debs/navd/usr/bin/navd"
    deb "$1" navd utils "libc6 (>= $program_glibc)" "proved navigation-mesh server core, the program that plays inputs"
}

# == A wheel and a crate ==

make_wheel() {
    tag=py3-none-manylinux_$(echo $glibc | tr . _)_$arch
    told=$1/wheel/$name.dist-info
    mkdir -p "$1/wheel/navd" "$told/licenses"
    cp "$top/hosts/python/navd.py" "$1/wheel/navd/__init__.py"
    cp "$top/hosts/python/navd_world.py" "$1/wheel"
    cp "$1/lib/libnavd.so.$version" "$1/wheel/navd/libnavd.so"
    cp "$top/LICENSE" "$top/LICENSE-MIT" "$top/LICENSE-APACHE" "$told/licenses"
    filled METADATA.in "$told/METADATA"
    cat "$top/CHANGELOG.md" >>"$told/METADATA"
    printf 'Wheel-Version: 1.0\nGenerator: navd %s\nRoot-Is-Purelib: false\nTag: %s\n' "$version" "$tag" >"$told/WHEEL"
    python3 "$parts/wheel.py" "$1/wheel" "$1/out/$name-$tag.whl"
}

make_crate() {
    tree=$1/crates/$name
    mkdir -p "$tree/native" "$tree/examples"
    tracked hosts/rust "$tree" Cargo.toml build.rs src examples
    cp "$1/lib/libnavd.a" "$tree/native"
    cp "$parts/first/first.rs" "$top/examples/detour.nav" "$tree/examples"
    lay_documents "$tree"
    packed "$1/crates" "$name" | gzip -n9 >"$1/out/$name.crate"
}

make_release() {
    mkdir -p "$1/out" "$1/trees" "$1/debs"
    make_archive "$1"
    make_shared "$1"
    make_tarball "$1"
    make_debs "$1"
    make_wheel "$1"
    [ "$cross" ] || make_crate "$1"
    (cd "$1/out" && sha256sum * >"$1/sums" && mv "$1/sums" SHA256SUMS)
}
