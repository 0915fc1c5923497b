#!/usr/bin/env bash
# Times queries over tables in memory by sqlsh and, where it is installed, by sqlite3's shell: a sort, DISTINCT, groups
# (1,000 of them), set operators, an equal join by WHERE, and subqueries, over 10,000 and over 100,000 rows (the last
# two over 3,000 and 10,000). Each is run ten times, in turn with the script that makes the tables and asks nothing,
# whose median is taken off. For each query the medians (processor seconds) are printed, how many times sqlite3's that is, and how much the
# time grew from the first number of rows to the second. The number of runs may be given, and behind it the queries that
# are wanted. PROGRAM=PATH tries another build of sqlsh than that of the repository.
set -euo pipefail
top=$(cd "$(dirname "$0")/.." && pwd)
program=${PROGRAM:-$top/sqlsh}
runs=${1:-10}
work=$(mktemp -d)
trap 'rm -rf "$work"' EXIT

# tables ROWS: a table T of so many rows in no order, and U, which has every second of them.
tables() {
  awk -v rows="$1" 'BEGIN {
    print "CREATE TABLE T (A INTEGER, B VARCHAR(20), C INTEGER);"
    print "CREATE TABLE U (A INTEGER, C INTEGER);"
    for (first = 0; first < rows; first += 500) {
      texts = ""; numbers = ""
      for (row = first; row < first + 500 && row < rows; row++) {
        number = (row * 7919) % rows
        texts = texts (texts == "" ? "" : ", ") "(" number ", '\''text " number % 5000 "'\'', " number % 1000 ")"
        numbers = numbers (numbers == "" ? "" : ", ") "(" 2 * number ", " number % 1000 ")"
      }
      print "INSERT INTO T VALUES " texts ";"
      print "INSERT INTO U VALUES " numbers ";"
      if (first % 5000 == 4500) print "COMMIT;"  # a transaction writes at most 1,024 pages
    }
    print "COMMIT;"
  }'
}

declare -A query=(
  [sort]="SELECT A, B, C FROM T ORDER BY C DESC, A;"
  [distinct]="SELECT DISTINCT B FROM T;"
  [group]="SELECT C, COUNT(*), SUM(A), MIN(B) FROM T GROUP BY C;"
  [union]="SELECT A FROM T UNION SELECT A FROM U;"
  [except]="SELECT A FROM T EXCEPT SELECT A FROM U;"
  [intersect]="SELECT A FROM T INTERSECT SELECT A FROM U;"
  [join]="SELECT COUNT(*) FROM T, U WHERE T.A = U.A AND T.C = 7 AND U.C = 14;"
  [subquery]="SELECT COUNT(*) FROM T WHERE A > (SELECT AVG(A) FROM U) AND C IN (SELECT C FROM U WHERE A < 20);"
)
names=("${@:2}")
[ ${#names[@]} -gt 0 ] || names=(sort distinct group union except intersect join subquery)

# rows_of NAME: the two numbers of rows over which a query is timed
rows_of() {
  case $1 in
    join | subquery) echo 3000 10000 ;;
    *) echo 10000 100000 ;;
  esac
}

run_sqlsh() { "$program" run < "$1"; }
run_sqlite3() { grep -v "^COMMIT;$" "$1" | sqlite3; }  # it commits each statement by itself

# seconds PROGRAM SCRIPT: the seconds that a processor works for one run, which other work beside it changes little
seconds() {
  local TIMEFORMAT='%3U %3S'
  { time "run_$1" "$2" > "$work/out"; } 2> "$work/time"
  awk '{ print $1 + $2 }' "$work/time"
}

median() { sort -n "$1" | awk '{ at[NR] = $1 } END { print (at[int((NR + 1) / 2)] + at[int(NR / 2) + 1]) / 2 }'; }

# timed PROGRAM NAME ROWS: the median of a query, the median of making the tables taken off
timed() {
  local tables="$work/tables.$3" script="$work/script" turn
  : > "$work/with"; : > "$work/without"
  { [ "$1" = sqlite3 ] && echo "BEGIN;"; cat "$tables"; } > "$work/empty" || cat "$tables" > "$work/empty"
  { cat "$work/empty"; echo "${query[$2]}"; } > "$script"
  for turn in $(seq "$runs"); do
    seconds "$1" "$script" >> "$work/with"
    seconds "$1" "$work/empty" >> "$work/without"
  done
  awk -v a="$(median "$work/with")" -v b="$(median "$work/without")" 'BEGIN { d = a - b; printf "%.4f\n", (d > 0.0005 ? d : 0.0005) }'
}

for rows in 3000 10000 100000; do tables "$rows" > "$work/tables.$rows"; done
lite=$(command -v sqlite3 || true)
printf '%-10s %8s %10s %10s %7s %7s\n' query rows sqlsh sqlite3 times growth
for name in "${names[@]}"; do
  before=
  for rows in $(rows_of "$name"); do
    own=$(timed sqlsh "$name" "$rows")
    other=-
    [ -n "$lite" ] && other=$(timed sqlite3 "$name" "$rows")
    times=$(awk -v a="$own" -v b="$other" 'BEGIN { if (b == "-") print "-"; else printf "%.1f", a / b }')
    growth=$([ -n "$before" ] && awk -v a="$own" -v b="$before" 'BEGIN { printf "%.1f", a / b }' || echo -)
    printf '%-10s %8s %10s %10s %7s %7s\n' "$name" "$rows" "$own" "$other" "$times" "$growth"
    before=$own
  done
done
