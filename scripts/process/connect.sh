#!/bin/sh
# A host that connects its printer by itself, by the example's settings: at the beginning, and again after the printer was switched off and
# on, but not after someone has disconnected it.
set -u
cd "$(dirname "$0")/../.." || exit 2
if ! command -v curl >/dev/null; then
    echo "skipped: a host that connects by itself: curl is missing"
    exit 0
fi
scripts/build octo marlin_sim || exit 1
. scripts/lib/with_work
printer_at=127.0.0.1:$(scripts/lib/free_port) || exit 1
address=127.0.0.1:$(scripts/lib/free_port) || exit 1

# The key of the example's settings.
key=rootxkeyx0000000
sed "s/^ports = .*/ports = [\"$printer_at\"]/" examples/octo.toml >"$work/octo.toml"
mkdir "$work/files"

switch_on() {
    timeout 120 crates/marlin_sim/out/marlin_sim "$printer_at" 0 4 - - >"$work/executed" 2>&1 &
    printer=$!
    started="$started $printer"
    scripts/lib/until_up "$printer_at" || exit 1
}

# Waits until the host is in that state, 30 seconds at most.
until_state() {
    tries=0
    until curl --silent --max-time 10 -H "X-Api-Key: $key" "http://$address/api/connection" |
        grep -q "\"state\":\"$1\""; do
        tries=$((tries + 1))
        if [ "$tries" -ge 300 ]; then
            echo "failed: a host that connects by itself: not $1 within 30 seconds"
            exit 1
        fi
        sleep 0.1
    done
}

switch_on
timeout 120 crates/octo/out/octo serve "$address" "$work/files" "$work/octo.db" --settings "$work/octo.toml" \
    >"$work/octo" 2>"$work/log" &
started="$started $!"
until_state Operational
echo "ok: a host connects its printer by itself at the beginning"
kill "$printer"
until_state Error
switch_on
until_state Operational
echo "ok: and again after the printer was off"
curl --silent --max-time 10 -H "X-Api-Key: $key" -H 'Content-Type: application/json' \
    --data '{"command":"disconnect"}' "http://$address/api/connection"
until_state Offline
sleep 12
until_state Offline
echo "ok: but not after someone has disconnected it"
