#!/usr/bin/env bash
# Runs sqlsh and looks at what no contract says of a program: what it prints of help and of wrong words, where it
# prints it, and the exit statuses. Each check prints a line; the status is 1 where one fails.
# PROGRAM=PATH tries another build of sqlsh than that of the repository.
set -uo pipefail
top=$(cd "$(dirname "$0")/.." && pwd)
program=$(realpath "${PROGRAM:-$top/sqlsh}")
work=$(mktemp -d)
trap 'rm -rf "$work"' EXIT
failed=0

# check NAME STATUS OUT ERR WORDS..: runs the program on these words and the input in $work/in. OUT and ERR are patterns
# of a line that standard output and standard error have; an empty one says that nothing is written there.
check() {
  local name=$1 status=$2 out=$3 err=$4 found
  shift 4
  "$program" "$@" < "$work/in" > "$work/out" 2> "$work/err"
  found=$?
  if [ "$found" != "$status" ]; then
    echo "$name: status $found, not $status"; failed=1
  elif ! matches "$out" "$work/out" || ! matches "$err" "$work/err"; then
    echo "$name: printed something else"; cat "$work/out" "$work/err"; failed=1
  else
    echo "$name: as it should be"
  fi
}

matches() {
  if [ -z "$1" ]; then [ ! -s "$2" ]; else grep -q -- "$1" "$2"; fi
}

: > "$work/in"
check "help" 0 "^Commands:" "" --help
check "help of run" 0 "--frames <N>" "" run --help
check "no command" 2 "" "."
check "another command" 2 "" "walk" walk
check "too few frames" 2 "" "15" run --frames 15
check "frames that are no number" 2 "" "x" run --frames x
check "nothing to do" 0 "" "" run --frames 16
echo "COMMIT;" > "$work/in"
check "a reply" 0 "^00000$" "" run
echo "COMMIT; SELECT;" > "$work/in"
check "a refusal" 1 "^ERROR 42000 syntax$" "" run
# The deepest and widest queries.
. "$top/bench/deep_texts.sh"
deepest_chain "" "" > "$work/in"
check "the deepest chain of set operators" 0 "^(1 rows)$" "" run
deepest_chain "SELECT A FROM T WHERE A IN (" ")" > "$work/in"
check "the deepest chain inside IN" 0 "^(1 rows)$" "" run
deepest_chain "SELECT A FROM T WHERE EXISTS (" ")" > "$work/in"
check "the deepest chain inside EXISTS" 0 "^(1 rows)$" "" run
deepest_subqueries > "$work/in"
check "subqueries in subqueries" 0 "^(1 rows)$" "" run
widest_query > "$work/in"
check "the widest query over eight tables" 0 "^(1 rows)$" "" run
# The stored run of sqlsh with the fewest and with the most frames: the same bytes.
cp "$top/crates/sqlsh/stdin" "$work/in"
for frames in 16 4096; do
  check "the stored run with $frames frames" "$(cat "$top/crates/sqlsh/status")" "." "" run --frames "$frames"
  if ! cmp "$work/out" "$top/crates/sqlsh/stdout"; then
    echo "the stored run with $frames frames: printed something else"; failed=1
  fi
done
# Tables in a file, by a path of the caller's folder.
cd "$work"
cp "$top/examples/first_run.sql" in
check "the first run over a file" 0 "^00000 1$" "" run tables
cp "$top/examples/second_run.sql" in
check "the second run over it" 0 "^1$" "" run --frames 16 tables
check "a file in no folder" 3 "^ERROR X0002$" "" run none/tables
check "two files" 2 "" "." run tables tables
check "a file before the frames" 2 "" "." run tables --frames 16
head -c 4095 /dev/zero > damaged
check "a damaged file" 3 "^ERROR X0004$" "" run damaged
# Rows to CSV and back.
echo "CREATE TABLE T (A INTEGER, V VARCHAR(5)); INSERT INTO T VALUES (1, 'a,b'), (NULL, ''); COMMIT;" > in
check "a table to dump" 0 "^00000 2$" "" run rows
: > in
check "a dump" 0 "^00000 2$" "" dump rows t rows.csv
printf "NULL,''\n1,\"'a,b'\"\n" > wanted.csv
if ! cmp wanted.csv rows.csv; then echo "a dump: wrote something else"; failed=1; fi
echo "DELETE FROM T; COMMIT;" > in
check "an empty table" 0 "^00000 2$" "" run rows
: > in
check "a load" 0 "^00000 2$" "" load rows T rows.csv
check "it dumped again" 0 "^00000 2$" "" dump rows T again.csv
if ! cmp wanted.csv again.csv; then echo "a load: other rows"; failed=1; fi
cp wanted.csv in
check "a load of standard input" 0 "^00000 2$" "" load rows T -
: > in
printf "1,'a'\n2,'b'\n3,'c'\n" > three.csv
printf "4,'d'\n5,'e'\n6,'a long text'\n" > long.csv
check "a load by batches" 0 "^00000 3$" "" load --batch 2 rows T three.csv
check "a load by batches that is refused" 1 "^ERROR 22001$" "^stopped behind 2 records$" load --batch=2 rows T long.csv
check "what it left" 0 "^00000 9$" "" dump rows T nine.csv
check "batches of no records" 2 "" "." load --batch 0 rows T three.csv
# With a header, and fields that are written plainly.
echo "CREATE TABLE P (A INTEGER, V VARCHAR(5), B INTEGER); COMMIT;" > in
check "a table for plain fields" 0 "^00000$" "" run rows
: > in
printf 'V,A\nx,1\n,2\n"q""r",-3\n' > plain.csv
check "a load with a header" 0 "^00000 3$" "" load --header --plain rows P plain.csv
check "a dump with a header" 0 "^00000 3$" "" dump --header --plain rows P again.csv
printf 'A,V,B\n-3,"q""r",\n1,x,\n2,,\n' > wanted.csv
if ! cmp wanted.csv again.csv; then echo "a dump with a header: wrote something else"; failed=1; fi
check "a load of what it wrote" 1 "^ERROR 22001$" "^stopped behind 2 records$" load --header --plain --batch 2 rows P <(cat wanted.csv; echo "4,too long,")
check "a dump of plain fields" 0 "^00000 5$" "" dump --plain rows P again.csv
printf 'V,Z\nx,1\n' > wrong.csv
check "a header that names no column" 1 "^ERROR 42000 name$" "" load --header rows P wrong.csv
printf 'V,v\nx,y\n' > wrong.csv
check "a header that names one twice" 1 "^ERROR 42000 duplicate$" "" load --header rows P wrong.csv
printf 'V,V,Z\nx,y,1\n' > wrong.csv
check "a header with both faults" 1 "^ERROR 42000 name$" "" load --header rows P wrong.csv
printf '1,x,y\n' > wrong.csv
check "a plain field that is no integer" 1 "^ERROR 42000 field$" "" load --plain rows P wrong.csv
printf '1,x,2,\n' > wrong.csv
check "a field behind the last column" 1 "^ERROR 42000 columns$" "" load --plain rows P wrong.csv
echo "INSERT INTO P VALUES (9, '', 9); COMMIT;" > in
check "an empty text" 0 "^00000 1$" "" run rows
: > in
check "a dump that would lose it" 1 "^ERROR 42000 field$" "" dump --header --plain rows P lost.csv
if [ -s lost.csv ]; then echo "a dump that would lose it: wrote something"; failed=1; fi
check "options in another order" 2 "" "." load --plain --header rows P plain.csv
check "a load of no table" 1 "^ERROR 42000 name$" "" load rows U rows.csv
check "a load of nothing" 0 "^02000 0$" "" load rows T in
check "a load of no file" 3 "^ERROR X0002$" "" load rows T none/rows.csv
check "a dump into no folder" 3 "^ERROR X0002$" "" dump rows T none/rows.csv
cp rows kept
ln rows other
check "a dump into FILE" 3 "^ERROR X0002$" "" dump rows T other
check "a load of FILE" 3 "^ERROR X0002$" "" load rows T ./rows
if ! cmp rows kept; then echo "a dump into FILE: FILE changed"; failed=1; fi
# FILE that is a socket.
python3 -c "import socket; socket.socket(socket.AF_UNIX).bind('socket')"
check "a run over a socket" 3 "^ERROR X0002$" "" run socket
check "a load into a socket" 3 "^ERROR X0002$" "" load socket T rows.csv
check "a dump of a socket" 3 "^ERROR X0002$" "" dump socket T never.csv
if [ ! -S socket ] || [ -e never.csv ]; then echo "FILE that is a socket: something changed"; failed=1; fi
check "a damaged FILE" 3 "^ERROR X0004$" "" dump damaged T never.csv
if [ -e never.csv ]; then echo "a damaged FILE: CSV was made"; failed=1; fi
check "a dump to standard input" 2 "" "." dump rows T -
check "a load without CSV" 2 "" "CSV" load rows T
check "a load of an option" 2 "" "." load rows T --header
check "help of load" 0 "<CSV>" "" load --help
rm "$work/in"; mkdir "$work/in"
check "input that cannot be read" 3 "^ERROR X0002$" "" run
exit "$failed"
