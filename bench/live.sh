#!/bin/sh
# Times live runs: settles beside questions, workers, lanes that wait for one tile, questions side by side, and memory. With an older built
# program it measures that too.     usage: bench/live.sh [OLDER]     Build first: cd crates/navd && rt run -- play < stdin
here=$(cd "$(dirname "$0")" && pwd)
exec python3 "$here/live.py" "$here/../crates/navd/out/navd" "$@"
