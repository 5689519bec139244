#!/bin/sh
# A demo of 200,000 commands ends well, and a second one prints the same.
set -u
cd "$(dirname "$0")/../.." || exit 2
scripts/build octo || exit 1
. scripts/lib/with_work
timeout 300 crates/octo/out/octo demo 1 200000 >"$work/first"
first=$?
timeout 300 crates/octo/out/octo demo 1 200000 >"$work/second"
second=$?
executed=$(sed -n 's/^executed //p' "$work/first")
if [ "$first" -eq 0 ] && [ "$second" -eq 0 ] && cmp "$work/first" "$work/second" && [ "$executed" -ge 200000 ]; then
    echo "ok: demo 1 200000, twice"
else
    echo "failed: demo 1 200000: status $first and $second"
    cat "$work/first" "$work/second"
    exit 1
fi
