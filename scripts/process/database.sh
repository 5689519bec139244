#!/bin/sh
# The database file beside the stock sqlite3: it reads ours, what it wrote is adopted, and what doesn't fit is refused.
set -u
cd "$(dirname "$0")/../.." || exit 2
scripts/build keeper_tool || exit 1
. scripts/lib/with_work
failed=0
tool=crates/keeper_tool/out/keeper_tool

# name, status, what was printed, the status that is wanted and the text that is wanted
compare() {
    printf "$5" >"$work/wanted"
    if [ "$2" -eq "$4" ] && cmp "$3" "$work/wanted"; then
        echo "ok: $1"
    else
        echo "failed: $1: status $2"
        cat "$3"
        failed=1
    fi
}

# name, the tool's arguments, its status and its text
tool_row() {
    # shellcheck disable=SC2086
    timeout 60 $tool $2 >"$work/tool"
    compare "$1" $? "$work/tool" "$3" "$4"
}

# name, a database, statements for sqlite3, and what it prints
sqlite_row() {
    timeout 60 sqlite3 -cmd '.timeout 20000' "$2" "$3" >"$work/sqlite" 2>&1
    compare "$1" $? "$work/sqlite" 0 "$4"
}

prints='print 1 ana hollow_box.gcode commands 218 done\nprint 2 ana hollow_box.gcode commands 218 done\n'
refused='not opened: no database, another schema, or in use\n'

# name, a file
private_row() {
    mode=$(stat -c %a "$2")
    if [ "$mode" = 600 ]; then
        echo "ok: $1"
    else
        echo "failed: $1: mode $mode"
        failed=1
    fi
}

new=$work/new.db
umask 000
tool_row "a new database" "$new" 0 'users 0\nentries 0\nprints 0\n'
private_row "it is its owner's alone, whatever the mask" "$new"
tool_row "two print records are added" "$new prints 2" 0 'added 2 prints\n'
tool_row "the database is opened again" "$new" 0 "users 0\nentries 0\nprints 2\n$prints"

# A kill leaves the log beside the file, with what was committed.
killed=$work/killed.db
$tool "$killed" prints 1000000 >"$work/tool" &
started=$!
sleep 2
kill -KILL "$started"
wait "$started" 2>/dev/null
started=
private_row "so is the database of a killed program" "$killed"
private_row "and its log" "$killed-wal"
umask 022
if [ -s "$killed-wal" ]; then
    echo "ok: a killed program leaves its log"
else
    echo "failed: a killed program leaves its log"
    failed=1
fi
cp "$killed" "$work/left.db"
cp "$killed-wal" "$work/left.db-wal"
tool_row "the database is opened after a kill" "$killed prints 0" 0 'added 0 prints\n'

cp scripts/process/database.sh "$work/text"
tool_row "a file that is no database is refused" "$work/text" 9 "$work/text: $refused"
if cmp scripts/process/database.sh "$work/text"; then
    echo "ok: it is as it was"
else
    echo "failed: it is as it was"
    failed=1
fi
tool_row "no command" "$new prints" 2 'usage: keeper_tool FILE [prints N]\n'

# The other rows need the stock program.
if ! command -v sqlite3 >/dev/null; then
    echo "skipped: the rows of the stock sqlite3: sqlite3 is missing"
    exit "$failed"
fi

sqlite_row "sqlite3 reads the file" "$new" \
    'PRAGMA integrity_check; SELECT schema FROM meta; SELECT * FROM prints;' \
    'ok\n2\n1|ana|hollow_box.gcode|218|1\n2|ana|hollow_box.gcode|218|1\n'
tool_row "the database is opened after sqlite3 read it" "$new" 0 "users 0\nentries 0\nprints 2\n$prints"
sqlite_row "sqlite3 adds rows" "$new" \
    "INSERT INTO users VALUES ('ben', zeroblob(32), 'users operators', 1);
    INSERT INTO entries VALUES ('ben', 'job-1', 'a.gcode', 5, 7, 3, 2, 'pla'), ('ben', 'job-2', 'b.gcode', 9, 8, 1, 1, 'any');
    UPDATE prints SET outcome = 2 WHERE number = 2;" ''
tool_row "what sqlite3 wrote is read" "$new" 0 'users 1\nuser ben active users operators\nentries 2
entry ben job-2 b.gcode priority 9 arrival 8 copies 1 left 1 material any
entry ben job-1 a.gcode priority 5 arrival 7 copies 3 left 2 material pla
prints 2\nprint 1 ana hollow_box.gcode commands 218 done\nprint 2 ana hollow_box.gcode commands 218 cancelled\n'
sqlite_row "sqlite3 reads the file and its log" "$work/left.db" \
    'PRAGMA integrity_check; SELECT schema FROM meta; SELECT count(*) > 0, count(*) = max(number) FROM prints;' 'ok\n2\n1|1\n'

old=$work/old.db
sqlite_row "sqlite3 makes a file of schema 1" "$old" \
    "CREATE TABLE meta (schema INTEGER NOT NULL);
    INSERT INTO meta VALUES (1);
    CREATE TABLE users (name TEXT PRIMARY KEY, digest BLOB NOT NULL UNIQUE, groups TEXT NOT NULL, active INTEGER NOT NULL);
    CREATE TABLE queue (user TEXT NOT NULL, name TEXT NOT NULL, file TEXT NOT NULL, priority INTEGER NOT NULL,
        arrival INTEGER NOT NULL UNIQUE, PRIMARY KEY (user, name));
    CREATE TABLE prints (number INTEGER PRIMARY KEY, user TEXT NOT NULL, file TEXT NOT NULL, commands INTEGER NOT NULL,
        outcome INTEGER NOT NULL);
    INSERT INTO users VALUES ('ana', randomblob(32), '', 0);
    INSERT INTO queue VALUES ('ana', 'job-1', 'a.gcode', 5, 3), ('ben', 'job-1', 'b.gcode', 100, 1);
    INSERT INTO prints VALUES (1, 'ana', 'a.gcode', 12, 3);" ''
cp "$old" "$work/other.db"
tool_row "it is adopted" "$old" 0 'users 1\nuser ana inactive\nentries 2
entry ben job-1 b.gcode priority 100 arrival 1 copies 1 left 1 material any
entry ana job-1 a.gcode priority 5 arrival 3 copies 1 left 1 material any
prints 1\nprint 1 ana a.gcode commands 12 failed\n'
sqlite_row "it is of schema 2 then" "$old" \
    "PRAGMA integrity_check; SELECT schema FROM meta; SELECT name FROM sqlite_schema WHERE type = 'table' ORDER BY name;
    SELECT * FROM entries ORDER BY arrival;" \
    'ok\n2\nentries\nmeta\nprints\nusers\nben|job-1|b.gcode|100|1|1|1|any\nana|job-1|a.gcode|5|3|1|1|any\n'

sqlite_row "sqlite3 sets another schema" "$work/other.db" 'UPDATE meta SET schema = 3;' ''
tool_row "another schema is refused" "$work/other.db" 9 "$work/other.db: $refused"
sqlite_row "its rows are as they were" "$work/other.db" \
    'PRAGMA integrity_check; SELECT schema FROM meta; SELECT count(*) FROM queue;' 'ok\n3\n2\n'
cp "$old" "$work/none.db"
sqlite_row "sqlite3 drops the number of the schema" "$work/none.db" 'DELETE FROM meta;' ''
tool_row "tables without a number are refused" "$work/none.db" 9 "$work/none.db: $refused"
sqlite_row "they are as they were" "$work/none.db" 'PRAGMA integrity_check; SELECT count(*) FROM entries;' 'ok\n2\n'
sqlite_row "sqlite3 writes an outcome that is none" "$new" 'UPDATE prints SET outcome = 4 WHERE number = 1;' ''
tool_row "rows that don't fit are refused" "$new" 4 "$new: the database failed, or its rows don't fit\n"

# sqlite3 has the file open in a transaction of its own.
mkfifo "$work/statements"
timeout 60 sqlite3 "$old" <"$work/statements" >"$work/locked" 2>&1 &
started=$!
exec 3>"$work/statements"
echo "BEGIN EXCLUSIVE; SELECT 'locked';" >&3
tries=0
until grep -q locked "$work/locked" || [ "$tries" -eq 500 ]; do
    tries=$((tries + 1))
    sleep 0.02
done
tool_row "a database in use is refused" "$old" 9 "$old: $refused"
echo 'COMMIT;' >&3
exec 3>&-
wait "$started"
started=
tool_row "it is opened when it is free" "$old prints 0" 0 'added 0 prints\n'
exit "$failed"
