#!/bin/sh
# The service's unit in docs/SERVING.md is read by systemd, and its exposure is below 4 of 10. Those of a floor in docs/FLOOR.md are read by
# systemd without a complaint, but for programs that this machine doesn't have.
set -u
cd "$(dirname "$0")/../.." || exit 2
if ! command -v systemd-analyze >/dev/null; then
    echo "skipped: the service's unit: systemd-analyze is missing"
    exit 0
fi
. scripts/lib/with_work
unit=$work/octo.service
sed -n '/^    \[Unit\]$/,/^    WantedBy=/s/^    //p' docs/SERVING.md >"$unit"
if ! systemd-analyze security --offline=true "$unit" >"$work/said" 2>&1; then
    echo "skipped: the service's unit: $(head -n 1 "$work/said")"
    exit 0
fi
exposure=$(sed -n 's/.*Overall exposure level for octo.service: \([0-9.]*\) .*/\1/p' "$work/said")
case $exposure in
[0-3].[0-9]) echo "ok: the service's unit: its exposure is $exposure" ;;
*)
    echo "failed: the service's unit: its exposure is ${exposure:-unknown}"
    cat "$work/said"
    exit 1
    ;;
esac

# The lines of a unit from its description on
unit_from() {
    echo '[Unit]'
    sed -n "/^    Description=$1\$/,/^    $2/s/^ \{0,4\}//p" docs/FLOOR.md
}
unit_from 'Print the queue on all printers' PrivateTmp= >"$work/octo-floor.service"
unit_from 'Print the queue in the evening' WantedBy= >"$work/octo-floor.timer"
systemd-analyze verify "$work/octo-floor.service" "$work/octo-floor.timer" >"$work/said" 2>&1
if grep -v 'is not executable: No such file or directory$' "$work/said"; then
    echo "failed: the units of a floor"
    exit 1
fi
if ! grep -q '^ExecStart=' "$work/octo-floor.service" || ! grep -q '^OnCalendar=' "$work/octo-floor.timer"; then
    echo "failed: docs/FLOOR.md doesn't have the units of a floor"
    exit 1
fi
echo "ok: the units of a floor are read without a complaint"
