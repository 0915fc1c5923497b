#!/usr/bin/env bash
# Times 100,000 rows inserted by statements of 500 rows, and the same with one full scan and a filter behind it, by
# sqlsh and, where it is installed, by sqlite3's shell. Each is run ten times, in turn; for each the median is printed,
# with the least and the greatest. sqlite3 gets the same text with BEGIN; before it, since sqlsh begins a transaction by
# itself. The number of runs may be given.
set -euo pipefail
top=$(cd "$(dirname "$0")/.." && pwd)
runs=${1:-10}
work=$(mktemp -d)
trap 'rm -rf "$work"' EXIT

awk 'BEGIN {
  print "CREATE TABLE T (A INTEGER, B VARCHAR(20), C INTEGER);"
  for (statement = 0; statement < 200; statement++) {
    printf "INSERT INTO T VALUES "
    for (row = 0; row < 500; row++) {
      number = statement * 500 + row
      printf "%s(%d, '\''text %d'\'', %d)", row ? ", " : "", number, number, number % 1000
    }
    print ";"
    if (++statements % 10 == 0) print "COMMIT;"  # a transaction writes at most 1,024 pages
  }
  print "COMMIT;"
}' > "$work/insert.sql"
echo "SELECT A, B FROM T WHERE C = 7 AND A > 1000;" > "$work/scan.sql"
cat "$work/insert.sql" "$work/scan.sql" > "$work/insert_and_scan.sql"
for name in insert insert_and_scan; do
  { echo "BEGIN;"; sed 's/^COMMIT;$/COMMIT; BEGIN;/' "$work/$name.sql"; } > "$work/$name.lite"
done

run_sqlsh() { "$top/sqlsh" run < "$work/$1.sql"; }
run_sqlite3() { sqlite3 < "$work/$1.lite"; }

# Adds the seconds that one run takes to the list of its program and script.
add_run() {
  local start end
  start=$(date +%s.%N)
  "run_$1" "$2" > "$work/out"
  end=$(date +%s.%N)
  awk -v s="$start" -v e="$end" 'BEGIN { printf "%.3f\n", e - s }' >> "$work/$1.$2.seconds"
}

# The median of a list, its least and its greatest.
summary() {
  sort -n "$work/$1.$2.seconds" | awk -v name="$1, $2" '{ s[NR] = $1 }
    END {
      middle = NR % 2 ? s[(NR + 1) / 2] : (s[NR / 2] + s[NR / 2 + 1]) / 2
      printf "%-26s %.3f s (%.3f to %.3f, %d runs)\n", name ":", middle, s[1], s[NR], NR
    }'
}

programs=(sqlsh)
if command -v sqlite3 > /dev/null; then
  programs+=(sqlite3)
fi

# Builds sqlsh, where that is needed, before the clock runs.
"$top/sqlsh" --help > /dev/null
for ((turn = 0; turn < runs; turn++)); do
  for program in "${programs[@]}"; do
    add_run "$program" insert
    add_run "$program" insert_and_scan
  done
done
for program in "${programs[@]}"; do
  summary "$program" insert
  summary "$program" insert_and_scan
done
