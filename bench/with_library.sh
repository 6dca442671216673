# What the scripts that measure the library begin with, read by `.` at the top of the repository: a folder `work` that goes when they end, and LIB, the
# archive of the library, which is what `rt lib` of crates/nav_ffi makes where none is named.
work=$(mktemp -d)
trap 'rm -rf "$work"' EXIT
if [ -z "${LIB:-}" ]; then
    (cd crates/nav_ffi && rt lib > "$work/build.log" 2>&1) || { cat "$work/build.log"; exit 1; }
    LIB=crates/nav_ffi/out/libnav_ffi.a
fi
