#!/usr/bin/env bash
# Runs joins by WHERE over tables of 3,000 rows with one match, two and three tables deep, in 64 MB of memory: about what
# the tables and the program take, and far less than the 9,000,000 pairs. Each prints a line; the status is 1 where one
# fails. PROGRAM=PATH tries another build of sqlsh than that of the repository.
set -uo pipefail
top=$(cd "$(dirname "$0")/.." && pwd)
program=${PROGRAM:-$top/sqlsh}
work=$(mktemp -d)
trap 'rm -rf "$work"' EXIT
failed=0

awk 'BEGIN {
  print "CREATE TABLE T (A INTEGER, B VARCHAR(20)); CREATE TABLE U (A INTEGER, B VARCHAR(20)); CREATE TABLE V (A INTEGER);"
  for (first = 0; first < 3000; first += 500) {
    left = ""; right = ""
    for (row = first; row < first + 500; row++) {
      left = left (left == "" ? "" : ", ") "(" row ", '\''left " row "'\'')"
      right = right (right == "" ? "" : ", ") "(" row + 2999 ", '\''right " row "'\'')"
    }
    print "INSERT INTO T VALUES " left "; INSERT INTO U VALUES " right ";"
  }
  print "INSERT INTO V VALUES (2999); COMMIT;"
}' > "$work/tables"

# within NAME QUERY PRINTED: the query prints this, in 64 MB.
within() {
  { cat "$work/tables"; echo "$2;"; } > "$work/in"
  (ulimit -v 65536; exec "$program" run < "$work/in" > "$work/out" 2> "$work/err")
  if [ $? = 0 ] && [ "$(tail -n 2 "$work/out" | head -n 1)" = "$3" ]; then
    echo "$1: in 64 MB"
  else
    echo "$1: $(tail -n 1 "$work/out")"; failed=1
  fi
}

"$program" --help > /dev/null
within "two tables" "SELECT T.B, U.B FROM T, U WHERE T.A = U.A" "'left 2999'|'right 0'"
within "three tables" "SELECT T.B, U.B FROM T, U, V WHERE T.A = U.A AND U.A = V.A" "'left 2999'|'right 0'"
exit "$failed"
