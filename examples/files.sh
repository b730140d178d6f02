#!/bin/bash
# What the program says of files that it can't use, each beside what it has to say: a directory, a folder that is not there or can't be written, a link
# that leads nowhere, a name that is too long, a second name, a journal of another program, a text, somebody else's database, one of a later version, one cut short, one with a byte that flipped, one that sqlite3 wrote to, one that
# may not be read, one that another program holds, a disk that is full, a log that can't be copied; that a trial leaves a file of an older version; and
# what a check says of files whose rows were changed.
# A server that reads its file twice before it listens is told by strace. It needs sqlite3, curl and strace. Usage: examples/files.sh PATH-OF-FTD [PORT]
set -u
ftd=$(realpath "${1:?the path of ftd}")
port=${2:-8080}
folder=$(mktemp -d)
trap 'rm -r "$folder"' EXIT
cd "$folder" || exit 1
failed=0
count=0

# what a command prints on both outputs, but its hints and notes, and its exit status, is to be so
says() {
    wanted=$1
    shift
    count=$((count + 1))
    said=$("$@" 2>&1)
    status=$?
    hint=$(grep '^hint: ' <<< "$said")
    said="$(grep -v '^hint: \|^note: ' <<< "$said") $status"
    if [ "$said" != "$wanted" ]; then
        echo "differs: $*: $said"
        failed=1
    fi
}

# the hint of the command before is to be so
hints() {
    count=$((count + 1))
    if [ "$hint" != "hint: $1" ]; then
        echo "differs: $hint"
        failed=1
    fi
}

# runs a command none of whose files may have more than so many kilobytes, as on a disk that is full
in_so_many_blocks() {
    (
        trap '' XFSZ
        ulimit -f "$1"
        shift
        exec "$@"
    )
}

chmod 755 "$folder"
cp "$ftd" ftd
ask=(status ash 2024-01-05 --db)
for words in 'calendar 2024' 'calendar 2025' 'enrol ash 2024-01-01' 'open-year ash 2024'; do
    # shellcheck disable=SC2086
    says 'done 0' "$ftd" $words --db office.db
done
mkdir folder
says 'failed File 3' "$ftd" "${ask[@]}" folder
hints 'folder: it is a folder'
says 'failed File 3' "$ftd" "${ask[@]}" not/there.db
hints 'not/there.db: its folder is not there'
# a link whose file can't be made, a name that is too long for its log to have one, a folder that can't be written, a second name, and a
# journal that sqlite3 left: no file is made for any of them
ln -s not/there.db dangling.db
says 'failed File 3' "$ftd" "${ask[@]}" dangling.db
hints "dangling.db: it is a link to a file that can't be made"
long=$(printf 'a%.0s' $(seq 252)).db
says 'failed File 3' "$ftd" "${ask[@]}" "$long"
hints "$long: its name is too long"
says ' 0' bash -c "ls | grep aaa; printf ''"
says 'failed File 3' "$ftd" import missing.csv --db office.db
hints 'missing.csv: it is not there'
says 'failed File 3' "$ftd" import folder --db office.db
hints 'folder: it is a folder'
seq 3000 > text.db
says 'failed NotOurs 3' "$ftd" "${ask[@]}" text.db
hints 'text.db: ftd did not make this file'
sqlite3 foreign.db 'CREATE TABLE run (number INTEGER)'
says 'failed NotOurs 3' "$ftd" "${ask[@]}" foreign.db
# a file that sqlite3 made of the desk's, which has no sums, is opened too
sqlite3 office.db .dump | sqlite3 newer.db
says '2024-01-05 monthly lookback 0' "$ftd" "${ask[@]}" newer.db
# what a check says of a file whose rows sqlite3 changed: each begins as a copy of the one above, which is sound
says 'sound accounts 1 years 1 runs 0 payments 0 obligations 0 0' "$ftd" check --db newer.db
while IFS='|' read -r wanted change; do
    cp newer.db changed.db
    sqlite3 changed.db "$change"
    says "$wanted" "$ftd" check --db changed.db
    hints 'something other than ftd changed the file: go back to a copy of it, or make a new file of a journal that you kept'
done << 'END'
unsound holidays 1|INSERT INTO holiday VALUES (19800, 2025)
unsound holidays 1|INSERT INTO changed_holiday VALUES (19800, 1, 0, 2024)
unsound accounts 1|INSERT INTO account VALUES ('Ash', 19723, 0)
unsound account ash 1|UPDATE year SET lookback = 1
unsound account ash 1|UPDATE year SET opening = 1
unsound account ash 1|INSERT INTO bucket VALUES ('ash', 19844, 19874, 0, 100, 19891)
unsound account ash 1|INSERT INTO run VALUES ('ash', 1, 19851, 100, 0, 0, 0)
unsound account ash 1|DELETE FROM account_form
END
# rows of an account that is not there are found when the file is opened
cp newer.db changed.db
sqlite3 changed.db "INSERT INTO run VALUES ('elm', 1, 19851, 100, 0, 0, 0)"
says 'failed NotOurs 3' "$ftd" check --db changed.db
# it is not a signature: another program can write what a command could have entered
cp newer.db changed.db
sqlite3 changed.db "INSERT INTO payment VALUES ('ash', 1, 19891, 19851, 100, 0)"
says 'sound accounts 1 years 1 runs 0 payments 1 obligations 0 0' "$ftd" check --db changed.db
rm changed.db
sqlite3 newer.db "UPDATE ftd_meta SET version = 4"
says 'failed Newer 4 3' "$ftd" "${ask[@]}" newer.db
hints 'newer.db: a later version of ftd made it'
corrupt=$'failed File\nCorrupt: the file is damaged or cut short 3'
cp office.db cut.db
truncate -s 8192 cut.db
says "$corrupt" "$ftd" "${ask[@]}" cut.db
for place in 5000 9000 20000; do
    cp office.db flipped.db
    byte=$(od -An -tu1 -j "$place" -N 1 office.db)
    # shellcheck disable=SC2059
    printf "\\$(printf %03o $((byte ^ 4)))" | dd of=flipped.db bs=1 seek="$place" conv=notrunc status=none
    says "$corrupt" "$ftd" "${ask[@]}" flipped.db
done
cp office.db written.db
says 'ash 0' sqlite3 written.db 'SELECT name FROM account'
says '2024-01-05 monthly lookback 0' "$ftd" "${ask[@]}" written.db
sqlite3 written.db 'UPDATE account SET start = start + 1'
says "$corrupt" "$ftd" "${ask[@]}" written.db
hints 'written.db: move it and its -wal aside, then put a copy back'
cp office.db locked.db
chmod 000 locked.db
as_somebody=()
[ "$(id -u)" != 0 ] || as_somebody=(setpriv --reuid 65534 --regid 65534 --clear-groups)
says 'failed File 3' "${as_somebody[@]}" ./ftd "${ask[@]}" locked.db
hints 'locked.db: this user may not use it'
mkdir unwritten
chmod 555 unwritten
says 'failed File 3' "${as_somebody[@]}" ./ftd calendar 2024 --db unwritten/office.db
hints "unwritten/office.db: its folder can't be written"
cp office.db first.db
ln first.db second.db
says 'failed File 3' "$ftd" "${ask[@]}" second.db
hints 'second.db: it has a second name (a hard link): use a copy'
cp office.db hot.db
printf '\331\325\005\371 \241c\327 a journal' > hot.db-journal
says 'failed File 3' "$ftd" "${ask[@]}" hot.db
hints 'hot.db: another program left hot.db-journal: open the file with sqlite3, then try again'
cp office.db full.db
says 'failed 22 Store 3' in_so_many_blocks "$(($(stat -c %s full.db) / 1024))" "$ftd" calendar 2026 --db full.db
says 'done 0' "$ftd" calendar 2026 --db full.db
# one that grows to more than half a megabyte, beside a log that may have less: what is committed can't be copied into it
seq 8000 | sed 's/.*/ash,&,2024-05-08,1,1,1/; 1i employer,run,payday,fit,ss,medicare' > runs.csv
cp office.db grown.db
says 'posted 8000 already 0 refused 0 malformed 0 0' "$ftd" import runs.csv --db grown.db
seq 8001 8400 | sed 's/.*/ash,&,2024-05-08,1,1,1/; 1i employer,run,payday,fit,ss,medicare' > more.csv
says $'posted 400 already 0 refused 0 malformed 0\nfailed File 3' \
    in_so_many_blocks 500 "$ftd" import more.csv --db grown.db
hints 'grown.db: the last commands are in grown.db-wal: keep both files, and run a command when the disk has room'
says 'posted 0 already 400 refused 0 malformed 0 0' "$ftd" import more.csv --db grown.db
rm runs.csv more.csv
# so a server, which says so at its end: what it answered is in the log
in_so_many_blocks 500 "$ftd" serve --db grown.db --port "$port" --connections 1 > out 2> err &
server=$!
until grep -qs '^listening ' out; do sleep 0.1; done
says '{"added":1,"from":"2024-05-01","removed":1,"reply":"posted","to":"2024-05-31"} 0' \
    curl -s -X DELETE "http://127.0.0.1:$port/accounts/ash/runs/7900"
wait "$server"
says '3 0' echo $?
says $'failed File\nkept in the log 0' sed 's/^hint: grown.db: the last commands are in grown.db-wal: .*/kept in the log/' err
says 'already 0' "$ftd" void ash 7900 --db grown.db
rm out err
# a trial over a file of version 2, and over one of version 1, answers as the import would, and leaves its bytes
printf 'employer,first_day,carried,form\nelm,2024-01-01,no,941\n' > accounts.csv
later='corrected corrected_year changed_holiday corrected_account'
for version in 2 1; do
    [ "$version" = 2 ] || later="$later account_form reported_year added_holiday"
    sqlite3 office.db .dump | sqlite3 "older$version.db"
    for name in $later; do sqlite3 "older$version.db" "DROP TABLE $name"; done
    sqlite3 "older$version.db" "UPDATE ftd_meta SET version = $version; VACUUM"
    cp "older$version.db" kept.db
    says 'posted 1 already 0 refused 0 malformed 0 0' "$ftd" import-accounts --check accounts.csv --db "older$version.db"
    says ' 0' cmp kept.db "older$version.db"
    says ' 1' test -e "older$version.db-wal"
    says 'posted 1 already 0 refused 0 malformed 0 0' "$ftd" import-accounts accounts.csv --db "older$version.db"
    says '3 0' sqlite3 "older$version.db" 'SELECT version FROM ftd_meta'
done
rm accounts.csv
says 'failed File 3' "$ftd" import runs.csv --db office.db
says 'failed Output 3' bash -c "'$ftd' status ash 2024-01-05 --db office.db > /dev/full"

"$ftd" serve --db office.db --port "$port" --connections 1 > out &
server=$!
until grep -qs '^listening ' out; do sleep 0.1; done
says $'failed File\nBusy: another program has the file open 3' "$ftd" "${ask[@]}" office.db
hints 'office.db: --wait SECONDS waits until it is closed'
says 'failed Net 3' "$ftd" serve --db other.db --port "$port" --connections 1
hints 'another program may have the port; --port 0 takes a free one'
says '{"day":"2024-01-05","kind":"monthly","reason":"lookback"} 0' \
    curl -s "http://127.0.0.1:$port/accounts/ash/status/2024-01-05"
wait "$server"
says '2024-01-05 monthly lookback 0' "$ftd" "${ask[@]}" office.db
# it reads its file once before it listens: each page as often as a command that reads it and ends
strace -e trace=pread64 -o read "$ftd" "${ask[@]}" office.db > told
strace -e trace=pread64,write -o served "$ftd" serve --db office.db --port "$port" --connections 1 > out 2> err &
server=$!
until grep -qs '^listening ' out; do sleep 0.1; done
says '{"day":"2024-01-05","kind":"monthly","reason":"lookback"} 0' \
    curl -s "http://127.0.0.1:$port/accounts/ash/status/2024-01-05"
wait "$server"
# how often the page at this place is read
reads() { grep -c "^pread64.* 4096, $1)" "$2"; }
sed '/^write(1, "listening/q' served > began
says "$(reads 98304 read) 0" reads 98304 began
rm out err told read served began
cp office.db copy.db
says '2024-01-05 monthly lookback 0' "$ftd" "${ask[@]}" copy.db
[ "$failed" = 0 ] && echo "all $count commands say what they have to"
exit "$failed"
