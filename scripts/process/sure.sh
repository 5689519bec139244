#!/bin/sh
# Prints over TCP to marlin_sim while replies are lost, by a host that reads the numbers of `ok`s and by one that counts them: both
# outputs and both statuses. Questions of the host, M105 and M400, are left out of what was executed.
set -u
cd "$(dirname "$0")/../.." || exit 2
scripts/build octo marlin_sim || exit 1
. scripts/lib/with_work
failed=0

# A line or a probe is due after a second.
cat >"$work/numbered.toml" <<'EOF'
[printer]
ports = ["127.0.0.1:7100"]
limit_ms = 1000
poll_ms = 1000
numbered_oks = true

[limits]

[admin]
name = "root"
key_sha256 = "470dc872b1b47dac8456c9f0800583d1176d1a2f194b626000379d1d7d7fc920"

[scripts]
afterPrintDone = ["M84"]
beforePrinterDisconnected = ["M107"]
EOF
sed /numbered_oks/d "$work/numbered.toml" >"$work/counted.toml"

# name, the command, its settings, the file's text, the arguments of marlin_sim after its address, what octo prints, octo's status, and
# what the printer prints
row() {
    port=$(scripts/lib/free_port) || exit 1
    printf "$4" >"$work/a.gcode"
    # shellcheck disable=SC2086
    timeout 60 crates/marlin_sim/out/marlin_sim "127.0.0.1:$port" $5 >"$work/executed" &
    printer=$!
    started=$printer
    scripts/lib/octo_when_up "$2" "127.0.0.1:$port" "$work/a.gcode" --settings "$work/$3.toml" --turns 50000 >"$work/octo"
    octo=$?
    wait "$printer"
    sim=$?
    started=
    printf "$6" >"$work/octo_wanted"
    printf "$8" >"$work/executed_wanted"
    # (the number of a question is left out with it)
    grep -v -e ' M105$' -e ' M400$' "$work/executed" | sed 's/^N[0-9]* //' >"$work/commands"
    if [ "$octo" -eq "$7" ] && [ "$sim" -eq 0 ] && cmp "$work/octo" "$work/octo_wanted" &&
        cmp "$work/commands" "$work/executed_wanted"; then
        echo "ok: $1"
    else
        echo "failed: $1: octo $octo, marlin_sim $sim"
        cat "$work/octo" "$work/executed"
        failed=1
    fi
}

done='done: 3 commands, 0 skipped\n'
file='G28\nG1 X10\nG1 X20\n'
all='M110 N1\nG28\nG1 X10\nG1 X20\nM84\nM107\n'
row "no reply lost" sure counted "$file" '4 4 - - -' "$done" 0 "$all"
row "the ok of the first command lost" sure counted "$file" '4 4 - - 2' "$done" 0 "$all"
row "the ok of the last command lost" sure counted "$file" '4 4 - - 4' "$done" 0 "$all"
row "the ok of the last script lost" sure counted "$file" '4 4 - - 6' "$done" 0 "$all"
row "three oks in a row lost" sure counted "$file" '4 4 - - 2,3,4' "$done" 0 "$all"
row "lines lost and corrupted, each second reply lost" sure counted "$file" '4 4 3 5 2,4,6,8,10,12' "$done" 0 "$all"
row "the same by the setting" print numbered "$file" '4 4 3 5 2,4,6,8,10,12' "$done" 0 "$all"
row "the ok of the first hello lost" sure counted "$file" '4 4 - - 1' "$done" 0 "M110 N1\n$all"
hellos='M110 N1\nM110 N1\nM110 N1\nM110 N1\nM110 N1\n'
row "the oks of all hellos lost" sure counted "$file" '4 4 - - 1,2,3,4,5' 'session ended: no answer, 5 limits\n' 6 "$hellos"
row "a host that counts the oks" print counted 'G28\nG1 X10\n' '4 4 - - 2' 'session ended: ok for 3, 2 expected\n' 6 'M110 N1\nG28\nG1 X10\nM84\n'
exit "$failed"
