#!/bin/sh
# Checks in seconds what no proof checks: names, the page of the claim, the C header, sizes and links of pages. Ends with the first failing status. What
# wants python3 is skipped where there is none.
cd "$(dirname "$0")/.." || exit 1
first=0

check() {
    if ! command -v python3 >/dev/null 2>&1; then
        echo "skipped, there is no python3: $*"
        return
    fi
    python3 -B "$@"
    status=$?
    [ "$first" -ne 0 ] || first=$status
}

check tools/names.py
check tools/claim.py --check
check tools/header.py --check
check tools/docs.py
exit "$first"
