#!/bin/sh
# Settings of the system's files: the example is read, its key is the one that it names, and refused settings end with 7.
set -u
cd "$(dirname "$0")/../.." || exit 2
scripts/build octo || exit 1
. scripts/lib/with_work
failed=0

# name, octo's status, what it prints, octo's arguments
check_row() {
    name=$1
    status=$2
    printf "$3" >"$work/wanted"
    shift 3
    timeout 60 crates/octo/out/octo "$@" >"$work/octo"
    octo=$?
    if [ "$octo" -eq "$status" ] && cmp "$work/octo" "$work/wanted"; then
        echo "ok: $name"
    else
        echo "failed: $name: octo $octo"
        cat "$work/octo"
        failed=1
    fi
}

example=examples/octo.toml
check_row "the example's settings" 0 'commands 218\nskipped 55\nhottest tool 200\nhottest bed 60\n' \
    check examples/hollow_box.gcode --settings "$example"
sed '/^ports/d' "$example" >"$work/no_ports.toml"
check_row "settings without ports" 7 'settings: printer.ports: missing\n' \
    check examples/hollow_box.gcode --settings "$work/no_ports.toml"
sed 's/^window = .*/window = 17/' "$example" >"$work/window.toml"
check_row "a window of 17" 7 'settings: printer.window: out of range\n' \
    check examples/hollow_box.gcode --settings "$work/window.toml"
sed 's/^beforePrintStarted = .*/beforePrintStarted = ["M104 S{{x}}"]/' "$example" >"$work/template.toml"
check_row "a template in a script" 7 'settings: scripts.beforePrintStarted: template\n' \
    check examples/hollow_box.gcode --settings "$work/template.toml"
check_row "settings before the file" 7 'settings: printer.ports: missing\n' \
    check "$work/none.gcode" --settings "$work/no_ports.toml"
check_row "arguments before settings" 2 'octo: bad words\n' \
    check "$work/none.gcode" --settings "$work/no_ports.toml" --turns 5
check_row "a file that isn't TOML" 7 'settings: not toml\n' \
    check examples/hollow_box.gcode --settings examples/hollow_box.gcode
check_row "no such settings" 4 'source failed\n' check examples/hollow_box.gcode --settings "$work/none"
printf 'G28\nM104 S200\nM109 R260\n' >"$work/hot.gcode"
sed 's/^tool = .*/tool = 250/' "$example" >"$work/cool.toml"
check_row "a limit of the settings" 3 'file: line 3: too hot: 260 over 250\n' \
    check "$work/hot.gcode" --settings "$work/cool.toml"
# Nobody listens at that port, and nothing is dialled.
check_row "a print above the settings' limit" 3 'file: line 3: too hot: 260 over 250\n' \
    print "127.0.0.1:$(scripts/lib/free_port)" "$work/hot.gcode" --settings "$work/cool.toml"

# The digest of the example's key, made as docs/USING.md says.
digest=$(printf %s rootxkeyx0000000 | sha256sum | cut -d ' ' -f 1)
if grep -q "^key_sha256 = \"$digest\"" "$example"; then
    echo "ok: the example's key"
else
    echo "failed: the example's key"
    failed=1
fi
exit "$failed"
