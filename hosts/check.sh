#!/bin/sh
# Builds the hosts over the library and has them play the examples, which must write what `navd play` wrote:
#
#     hosts/check.sh [LIBRARY]        the archive; else where `rt lib` of crates/nav_ffi leaves it
#
# The host in C plays each example plainly, with the compiler's checks of addresses and undefined behaviour, and, on one example, with each
# allocation refused in turn; random calls, valid and not, follow, threads that ask views beside one that changes the level, walkers that keep their
# paths while doors open and close, a crowd among doors that is looked at from outside and played again, doors that are moved, switched, saved and
# restored by their ids, threads that build the tiles of these, and kinds of agents beside levels of their own.
# The host in Python plays them through a shared object, and the one in Rust runs its test, where there is cargo.
# The hosts in C++, built by g++ for C++17 with these checks and by clang++ for C++20, and in C#, by Mono, play all inputs, asked of the
# level and of a view; what no script asks for they have to tell alike. Each is skipped with a line where its compiler is not there.
# Over the thin layer in metres, with these checks too, a game's loop writes what it wrote, what is refused is tried, and doors turn beside threads
# that ask. The hosts in C++, C#, Python and Rust play that loop over it too, tell alike what it does not call, and lay their structs out as C does.
# Python tells which cases of a level do not hold.
set -eu
here=$(cd "$(dirname "$0")" && pwd)
lib=$(realpath "${1:-$here/../crates/nav_ffi/out/libnav_ffi.a}")
to=$(mktemp -d)
trap 'rm -rf "$to"' EXIT
make -s -C "$here/c" LIB="$lib" TO="$to" "$to/play" "$to/checked" "$to/calls" "$to/readers" "$to/readers_checked" "$to/doors" "$to/crowd" "$to/registry" "$to/workers" "$to/kinds" "$to/libnavd.so"
count=0
for out in "$here"/../examples/*.out; do
    input=${out%.out}.nav
    for host in "$to/play" "$to/checked" "env NAVD_LIBRARY=$to/libnavd.so python3 $here/python/play.py"; do
        # a text with a fault is told so, with the status 1
        $host < "$input" > "$to/told" || [ "$(cut -c1-6 "$to/told")" = "fault " ] || { echo "failed: $host $input"; exit 1; }
        cmp "$to/told" "$out" || { echo "differs: $host $input"; exit 1; }
        count=$((count + 1))
    done
done
input=$here/../examples/storeroom.nav
refused=0
while :; do
    refused=$((refused + 1))
    "$to/checked" "$refused" < "$input" > "$to/told" 2> "$to/count" || { echo "failed: allocation $refused refused"; cat "$to/count"; exit 1; }
    cmp "$to/told" "${input%.nav}.out" || { echo "differs: allocation $refused refused"; exit 1; }
    [ "$(cat "$to/count")" -ge "$refused" ] || break
done
echo "played $count times alike, and $((refused - 1)) times with an allocation refused"
"$to/calls" "$here/../examples/bridge.nav" 10000 1
"$to/calls" "$here/../examples/storeroom.nav" 10000 2
"$to/readers" "$here/../examples/storeroom.nav" 2000
"$to/readers_checked" "$here/../examples/storeroom.nav" 2000
"$to/doors" 60
"$to/crowd" 400
"$to/registry" 2000
"$to/workers" 2000
"$to/kinds" 2000
cc=${CC:-cc}
$cc -std=c11 -Wall -Wextra -Wpedantic -Werror -I"$here/../include" -o "$to/world_layouts" "$here/world/layouts.c"
"$to/world_layouts" > "$to/layouts"
if command -v cargo > "$to/cargo"; then
    NAVD_LAYOUTS=$to/layouts NAVD_LIBRARY_DIR=$(dirname "$lib") \
        cargo test --quiet --offline --manifest-path "$here/rust/Cargo.toml" --target-dir "$to/target"
fi

# world NAME FILE..: builds a program of hosts/world with the thin layer.
checks="-g -fsanitize=address,undefined -fno-sanitize-recover=all"
world() {
    name=$1
    shift
    $cc -std=c11 -Wall -Wextra -Wpedantic -Werror $checks -I"$here/../include" \
        -o "$to/world_$name" "$here/world/$name.c" "$here/world/navd_world.c" "$@" "$lib" -lm -pthread
}

world doors "$here/c/heap.c"
"$to/world_doors" > "$to/told"
cmp "$to/told" "$here/world/doors.out" || { echo "differs: hosts/world/doors"; exit 1; }
world refusals
"$to/world_refusals"
world turning
"$to/world_turning" 500

python3 "$here/../examples/building.py" > "$to/house.obj"
NAVD_LIBRARY=$to/libnavd.so python3 -B "$here/python/navd_check.py" "$to/house.obj" "$here/python/house.cases" > "$to/told" || [ $? = 8 ]
cmp "$to/told" "$here/python/house.checked" || { echo "differs: hosts/python/navd_check.py"; exit 1; }

# wants WHAT TOOL..: the tools are there; else it says what is skipped.
wants() {
    what=$1
    shift
    for tool in "$@"; do
        command -v "$tool" > "$to/tool" || { echo "skipped, there is no $tool: $what"; return 1; }
    done
}

# plays NAME COMMAND..: the inputs, asked of the level and of a view, as the host in C; and what no script asks for, as the first of these.
plays() {
    name=$1
    shift
    for input in "$here"/../examples/*.nav; do
        due=$to/$(basename "$input")
        "$to/play" < "$input" > "$due" 2> "$to/errors" || :
        for mode in "" view more; do
            "$@" $mode < "$input" > "$to/told" 2> "$to/errors" || [ "$(cut -c1-6 "$to/told")" = "fault " ] ||
                { echo "failed: $name $mode $input"; cat "$to/errors"; exit 1; }
            [ "$mode" != more ] || due=$due.more
            [ -f "$due" ] || cp "$to/told" "$due"
            cmp "$to/told" "$due" || { echo "differs: $name $mode $input"; exit 1; }
        done
    done
    echo "$name plays alike"
}

# doors NAME COMMAND..: plays the loop of hosts/world/doors.c, and tells what that does not call as the first of these.
doors() {
    name=$1
    shift
    for mode in "" more; do
        "$@" $mode > "$to/told" || { echo "failed: $name, the doors $mode"; exit 1; }
        due=$here/world/doors.out
        [ -z "$mode" ] || due=$to/doors.more
        [ -f "$due" ] || cp "$to/told" "$due"
        cmp "$to/told" "$due" || { echo "differs: $name, the doors $mode"; exit 1; }
    done
    echo "$name turns the doors alike"
}

# lays NAME COMMAND..: the structs of navd_world.h lie as in C.
lays() {
    name=$1
    shift
    "$@" layouts | cmp - "$to/layouts" || { echo "differs: $name, the layouts"; exit 1; }
}

# cpp NAME COMPILER WORDS..: builds the program of hosts/cpp.
cpp() {
    name=$1
    shift
    "$@" -Wall -Wextra -Wpedantic -Werror -I"$here/../include" -o "$to/${name}_cpp" "$here/cpp/$name.cpp" "$to/navd_world.o" "$lib" -pthread
}

$cc -std=c11 -O2 $checks -I"$here/../include" -c -o "$to/navd_world.o" "$here/world/navd_world.c"
if wants "C++17" g++; then
    cpp play g++ -std=c++17 $checks
    plays "C++17" "$to/play_cpp"
    cpp doors g++ -std=c++17 $checks
    doors "C++17" "$to/doors_cpp"
fi
$cc -std=c11 -O2 -I"$here/../include" -c -o "$to/navd_world.o" "$here/world/navd_world.c"
if wants "C++20" clang++; then
    cpp play clang++ -std=c++20 -O2
    plays "C++20" "$to/play_cpp"
    cpp doors clang++ -std=c++20 -O2
    doors "C++20" "$to/doors_cpp"
fi
if wants "C#" mcs mono; then
    mcs -warn:4 -warnaserror -out:"$to/play.exe" "$here/csharp/Navd.cs" "$here/csharp/Play.cs"
    plays "C#" env LD_LIBRARY_PATH="$to" mono "$to/play.exe"
    mcs -warn:4 -warnaserror -out:"$to/doors.exe" "$here/csharp/Navd.cs" "$here/csharp/NavdWorld.cs" "$here/csharp/Doors.cs"
    doors "C#" env LD_LIBRARY_PATH="$to" mono "$to/doors.exe"
    lays "C#" mono "$to/doors.exe"
fi
doors "Python" env NAVD_LIBRARY="$to/libnavd.so" python3 -B "$here/python/doors.py"
lays "Python" python3 -B "$here/python/doors.py"
if python3 -c "import numpy" 2> "$to/errors"; then
    doors "Python with numpy" env NAVD_LIBRARY="$to/libnavd.so" python3 -B "$here/python/doors.py" numpy
else
    echo "skipped, there is no numpy: Python with numpy"
fi
if wants "Rust" cargo; then
    NAVD_LIBRARY_DIR=$(dirname "$lib") cargo build --quiet --offline --manifest-path "$here/rust/Cargo.toml" --target-dir "$to/target" --example doors
    doors "Rust" "$to/target/debug/examples/doors"
fi
