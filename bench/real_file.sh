#!/bin/sh
# Writes a desk's file with the program and reads it by sqlite3's command line: the file is whole, the sixteen tables have their
# columns and types, and the rows are there. It needs Debian's sqlite3. Usage: bench/real_file.sh [PROGRAM]
set -eu
top=$(cd "$(dirname "$0")/.." && pwd)
folder=$(mktemp -d)
trap 'rm -r "$folder"' EXIT
ftd=${1:-$top/crates/ftd/out/ftd}
file=$folder/desk.db
{
    "$ftd" calendar --db "$file" 2024
    "$ftd" calendar --db "$file" 2025
    "$ftd" enrol --db "$file" ash 2024-01-01
    "$ftd" open-year --db "$file" ash 2024
    "$ftd" post --db "$file" ash 1 2024-01-01 1000.00 248.00 58.00
    "$ftd" post --db "$file" ash 2 2024-08-21 1000.01 248.00 58.00
    "$ftd" post --db "$file" ash 3 2024-04-10 1000.02 248.00 58.00
} >"$folder/said"
sqlite3 "$folder/desk.db" >"$folder/found" <<'SQL'
PRAGMA integrity_check;
PRAGMA foreign_key_check;
SELECT m.name, c.name, c.type, c."notnull", c.pk FROM sqlite_schema m, pragma_table_info(m.name) c
  WHERE m.type = 'table' ORDER BY m.rowid, c.cid;
SELECT tbl_name, name FROM sqlite_schema WHERE type = 'index' AND sql IS NOT NULL ORDER BY name;
SELECT * FROM ftd_meta;
SELECT * FROM account;
SELECT * FROM run ORDER BY run;
SELECT * FROM bucket ORDER BY first_day;
SQL
cat >"$folder/expected" <<'TEXT'
ok
ftd_meta|tag|TEXT|1|1
ftd_meta|version|INTEGER|1|0
account|name|TEXT|1|1
account|start|INTEGER|1|0
account|carried|INTEGER|1|0
reported|account|TEXT|1|1
reported|cal_year|INTEGER|1|2
reported|quarter|INTEGER|1|3
reported|cents|INTEGER|1|0
calendar_year|cal_year|INT|1|1
holiday|day|INT|1|1
holiday|cal_year|INTEGER|1|0
year|account|TEXT|1|1
year|cal_year|INTEGER|1|2
year|lookback|INTEGER|1|0
year|opening|INTEGER|1|0
year|turn|INTEGER|0|0
run|account|TEXT|1|1
run|run|INTEGER|1|2
run|payday|INTEGER|1|0
run|fit|INTEGER|1|0
run|ss|INTEGER|1|0
run|medicare|INTEGER|1|0
run|voided|INTEGER|1|0
payment|account|TEXT|1|1
payment|payment|INTEGER|1|2
payment|paid|INTEGER|1|0
payment|for_day|INTEGER|1|0
payment|cents|INTEGER|1|0
payment|voided|INTEGER|1|0
bucket|account|TEXT|1|1
bucket|first_day|INTEGER|1|2
bucket|last_day|INTEGER|1|0
bucket|rule|INTEGER|1|0
bucket|cents|INTEGER|1|0
bucket|due|INTEGER|1|0
account_form|account|TEXT|1|1
account_form|form|INTEGER|1|0
reported_year|account|TEXT|1|1
reported_year|cal_year|INTEGER|1|2
reported_year|cents|INTEGER|1|0
added_holiday|day|INT|1|1
added_holiday|cal_year|INTEGER|1|0
corrected|account|TEXT|1|1
corrected|cal_year|INTEGER|1|2
corrected|quarter|INTEGER|1|3
corrected|number|INTEGER|1|4
corrected|cents|INTEGER|1|0
corrected_year|account|TEXT|1|1
corrected_year|cal_year|INTEGER|1|2
corrected_year|number|INTEGER|1|3
corrected_year|cents|INTEGER|1|0
changed_holiday|day|INTEGER|1|1
changed_holiday|number|INTEGER|1|2
changed_holiday|is_holiday|INTEGER|1|0
changed_holiday|cal_year|INTEGER|1|0
corrected_account|account|TEXT|1|1
corrected_account|number|INTEGER|1|2
corrected_account|start|INTEGER|1|0
corrected_account|carried|INTEGER|1|0
payment|ftd_payment_by_day
run|ftd_run_by_payday
ftd|3
ash|19723|0
ash|1|19723|100000|24800|5800|0
ash|2|19956|100001|24800|5800|0
ash|3|19823|100002|24800|5800|0
ash|19723|19753|0|130600|19768
ash|19814|19843|0|130602|19858
ash|19936|19966|0|130601|19982
TEXT
diff "$folder/expected" "$folder/found"
echo "sqlite3 reads what the store wrote"
