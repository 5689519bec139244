#!/bin/sh
# Prints of small files over TCP and over a Unix socket to marlin_sim: both outputs and both statuses.
set -u
cd "$(dirname "$0")/../.." || exit 2
scripts/build octo marlin_sim || exit 1
. scripts/lib/with_work
failed=0

# A line that is lost is sent again after one second.
cat >"$work/settings.toml" <<'EOF'
[printer]
ports = ["127.0.0.1:7100"]
limit_ms = 1000

[limits]

[admin]
name = "root"
key_sha256 = "470dc872b1b47dac8456c9f0800583d1176d1a2f194b626000379d1d7d7fc920"
EOF
cp "$work/settings.toml" "$work/scripts.toml"
cat >>"$work/scripts.toml" <<'EOF'

[scripts]
beforePrintStarted = ["M107"]
afterPrintDone = ["M84"]
EOF

# name, the file's text, the arguments of marlin_sim after its address, what octo prints, octo's status, what the printer prints,
# and octo's options
print_row() {
    if [ "$over" = tcp ]; then
        port=$(scripts/lib/free_port) || exit 1
        address=127.0.0.1:$port
    else
        address=unix:$work/printer
    fi
    printf "$2" >"$work/a.gcode"
    # shellcheck disable=SC2086
    timeout 60 crates/marlin_sim/out/marlin_sim "$address" $3 >"$work/executed" &
    printer=$!
    started=$printer
    scripts/lib/octo_when_up print "$address" "$work/a.gcode" ${7:---turns 5000} >"$work/octo"
    octo=$?
    wait "$printer"
    sim=$?
    started=
    printf "$4" >"$work/octo_wanted"
    printf "$6" >"$work/executed_wanted"
    if [ "$octo" -eq "$5" ] && [ "$sim" -eq 0 ] && cmp "$work/octo" "$work/octo_wanted" &&
        cmp "$work/executed" "$work/executed_wanted"; then
        echo "ok: $1"
    else
        echo "failed: $1: octo $octo, marlin_sim $sim"
        cat "$work/octo" "$work/executed"
        failed=1
    fi
}

# name, marlin_sim's arguments, its status, and what standard error says
sim_row() {
    # shellcheck disable=SC2086
    timeout 60 crates/marlin_sim/out/marlin_sim $2 >"$work/executed" 2>"$work/complaint"
    sim=$?
    printf '%s\n' "$4" >"$work/complaint_wanted"
    if [ "$sim" -eq "$3" ] && cmp "$work/complaint" "$work/complaint_wanted" && [ ! -s "$work/executed" ]; then
        echo "ok: $1"
    else
        echo "failed: $1: marlin_sim $sim"
        cat "$work/complaint"
        failed=1
    fi
}

# A printer that is killed while it prints: octo ends with status 5, and the printer executed the first lines of the print.
kill_row() {
    port=$(scripts/lib/free_port) || exit 1
    timeout 60 crates/marlin_sim/out/marlin_sim "127.0.0.1:$port" 0 4 - - >"$work/executed" &
    printer=$!
    started=$printer
    python3 - >"$work/long.gcode" <<'EOF'
for number in range(200_000):
    print("G1 X%d" % number)
EOF
    (sleep 1; pkill -9 -P "$printer" 2>/dev/null; kill -9 "$printer" 2>/dev/null) &
    scripts/lib/octo_when_up print "127.0.0.1:$port" "$work/long.gcode" >"$work/octo"
    octo=$?
    wait "$printer" 2>/dev/null
    started=
    printf 'link failed\n' >"$work/octo_wanted"
    if [ "$octo" -eq 5 ] && cmp "$work/octo" "$work/octo_wanted" && python3 - "$work/executed" <<'EOF'
import sys
lines = open(sys.argv[1]).read().split("\n")[:-1]
texts = [line.split(" ", 1)[1] for line in lines[1:] if not line.endswith(" M105")]
wanted = ["G1 X%d" % number for number in range(len(texts))]
sys.exit(0 if texts == wanted and (not lines or lines[0] == "N1 M110 N1") else 1)
EOF
    then
        echo "ok: a printer that is killed while it prints"
    else
        echo "failed: a printer that is killed while it prints: octo $octo"
        cat "$work/octo"
        failed=1
    fi
}

over=tcp
print_row "two commands" 'G28\nG1 X10\n' '4 4 - -' \
    'done: 2 commands, 0 skipped\n' 0 'N1 M110 N1\nN2 G28\nN3 G1 X10\n'
print_row "comments and CR LF" '; a\r\nG28 ; home\r\n\r\nM105\r\n' '4294967295 1 - -' \
    'done: 2 commands, 2 skipped\n' 0 'N1 M110 N1\nN2 G28\nN3 M105\n'
print_row "an empty file" '' '0 16 - -' 'done: 0 commands, 0 skipped\n' 0 'N1 M110 N1\n'
print_row "the third line corrupted" 'G28\nG1 X10\n' '4 4 - 3' \
    'done: 2 commands, 0 skipped\n' 0 'N1 M110 N1\nN2 G28\nN3 G1 X10\n'
print_row "the second line lost" 'G28\nG1 X10\n' '4 4 2 -' \
    'done: 2 commands, 0 skipped\n' 0 'N1 M110 N1\nN2 G28\nN3 G1 X10\n'
scripted='N1 M110 N1\nN2 M107\nN3 G28\nN4 G1 X10\nN5 M84\n'
print_row "scripts, and the last line lost" 'G28\nG1 X10\n' '4 4 5 -' \
    'done: 2 commands, 0 skipped\n' 0 "$scripted" "--settings $work/scripts.toml --turns 50000"
print_row "scripts round an empty file" '' '4 4 - -' \
    'done: 0 commands, 0 skipped\n' 0 'N1 M110 N1\nN2 M107\nN3 M84\n' "--settings $work/scripts.toml --turns 50000"
kill_row
over=unix
print_row "two commands over a Unix socket" 'G28\nG1 X10\n' '4 4 - -' \
    'done: 2 commands, 0 skipped\n' 0 'N1 M110 N1\nN2 G28\nN3 G1 X10\n'
print_row "the third line lost over a Unix socket" 'G28\nG1 X10\n' '4 4 3 -' \
    'done: 2 commands, 0 skipped\n' 0 'N1 M110 N1\nN2 G28\nN3 G1 X10\n' "--settings $work/settings.toml --turns 50000"
usage="usage: marlin_sim ADDRESS LAST SLOTS DROP GARBLE [LOST]"
sim_row "marlin_sim without arguments" "" 2 "marlin_sim: it takes five or six arguments
$usage"
sim_row "marlin_sim with 17 slots" "127.0.0.1:0 0 17 - -" 2 "marlin_sim: SLOTS has to be a number from 1 to 16
$usage"
sim_row "marlin_sim at an address where it can't listen" "unix:$work/none/printer 0 4 - -" 12 \
    "marlin_sim: it can't listen at the address, or the connection failed"
exit "$failed"
