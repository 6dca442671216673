#!/bin/sh
# Runs the scripts that take times, all of them or those that are named, one after another, and tells which failed its own limits. Programs
# that they time are proved and built first, which takes what `rt run` takes.     usage: bench/run.sh [NAME..]   as bench/run.sh play paths
set -u
cd "$(dirname "$0")/.."
[ -x crates/navd/out/navd ] || (cd crates/navd && rt run -- play < stdin > /dev/null) || exit 1
[ $# -gt 0 ] || set -- nav_base turn_lock span_text funnel hops places walks ground strips play paths clear readers
failed=
for name in "$@"; do
    echo "== $name"
    sh "bench/$name.sh" || failed="$failed $name"
done
[ -z "$failed" ] || { echo "failed:$failed" >&2; exit 1; }
