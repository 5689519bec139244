#!/bin/sh
# dist/ holds the programs that dist/SOURCES names. Those of these sources and this kit are, byte for byte, what was built here.
set -u
cd "$(dirname "$0")/../.." || exit 2
. scripts/lib/programs

if [ ! -e dist ]; then
    echo "ok: there is no dist/, so no program is prebuilt"
    exit 0
fi
if ! command -v xz >/dev/null; then
    echo "skipped: the programs of dist/: xz is missing"
    exit 0
fi
if [ ! -f dist/SOURCES ]; then
    echo "failed: dist/ has no SOURCES"
    exit 1
fi

. scripts/lib/with_work
failed=0
fail() {
    echo "failed: $1"
    failed=1
}

for packed in dist/*; do
    name=${packed#dist/}
    name=${name%.xz}
    [ "$name" = SOURCES ] || grep -q "^$name " dist/SOURCES || fail "dist/SOURCES does not name $packed"
done

# A program's name, its SHA-256 and the checksum of its sources
check_program() {
    packed=dist/$1.xz
    made=crates/$1/out/$1
    if ! xz -dc "$packed" >"$work/program" || [ "$(sum_of_input <"$work/program")" != "$2" ]; then
        fail "$packed does not hold the program that dist/SOURCES names"
    elif [ "$(sources_sum "$1")" != "$3" ]; then
        echo "ok: $packed holds the program that dist/SOURCES names; it is of other sources than these (scripts/dist renews it)"
    elif [ "$its_kit" != "$kit" ]; then
        echo "ok: $packed holds the program that dist/SOURCES names; it is of these sources and of another kit ($its_kit, here ${kit:-none})"
    elif ! is_proved_here "$1"; then
        echo "ok: $packed holds the program that dist/SOURCES names"
        echo "skipped: $packed beside a program that is built here: $made was not proved and built here"
    elif cmp "$work/program" "$made"; then
        echo "ok: $packed is the program that was built here from the same sources"
    else
        fail "$packed is not the program that was built here from the same sources (scripts/dist renews it)"
    fi
}

find_kit
its_kit=
while read -r name sum sources rest; do
    case "$name" in
    '#'* | '') ;;
    kit) its_kit="$sum $sources $rest" ;;
    *) check_program "$name" "$sum" "$sources" ;;
    esac
done <dist/SOURCES
exit "$failed"
