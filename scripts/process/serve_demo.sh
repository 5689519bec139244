#!/bin/sh
# The demonstration of `octo serve` ends well: the printer executed the commands of the three prints.
set -u
cd "$(dirname "$0")/../.." || exit 2
if ! command -v curl >/dev/null; then
    echo "skipped: scripts/serve_demo: curl is missing"
    exit 0
fi
scripts/build octo marlin_sim || exit 1
log=$(mktemp) || exit 2
trap 'rm -f "$log"' EXIT
if timeout 300 scripts/serve_demo >"$log" 2>&1; then
    echo "ok: scripts/serve_demo"
else
    echo "failed: scripts/serve_demo"
    cat "$log"
    exit 1
fi
