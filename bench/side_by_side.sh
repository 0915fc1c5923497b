#!/usr/bin/env bash
# Runs sqlmany and looks at what no contract says of a program: that it reads the files that it is asked for, what it prints of help and of wrong words, where it prints it, and
# the exit statuses; and that the deepest queries run on a spawned thread. Each check prints a line; the status is 1 where one fails. PROGRAM=PATH tries another build of sqlmany than that of the repository.
set -uo pipefail
top=$(cd "$(dirname "$0")/.." && pwd)
program=$(realpath "${PROGRAM:-$top/sqlmany}")
work=$(mktemp -d)
trap 'rm -rf "$work"' EXIT
cd "$work"
failed=0

# same NAME STATUS WORDS..: runs the program on these words; it has to print just what is in the file `wanted`, nothing on standard error, and end with this status.
same() {
  local name=$1 status=$2 found
  shift 2
  "$program" "$@" > out 2> err
  found=$?
  if [ "$found" != "$status" ]; then
    echo "$name: status $found, not $status"; failed=1
  elif ! cmp -s wanted out || [ -s err ]; then
    echo "$name: printed something else"; cat out err; failed=1
  else
    echo "$name: as it should be"
  fi
}

# wrong NAME WORDS..: the words ask for nothing that there is: status 2, a line on standard error, and nothing printed.
wrong() {
  local name=$1 found
  shift
  "$program" "$@" > out 2> err
  found=$?
  if [ "$found" = 2 ] && [ ! -s out ] && [ -s err ]; then
    echo "$name: as it should be"
  else
    echo "$name: status $found"; cat out err; failed=1
  fi
}

wrong "no script"
wrong "too few frames" --frames 15 one.sql
wrong "an option behind the scripts" one.sql --frames 16
"$program" --help > out 2> err && grep -q -- "--frames <N>" out && [ ! -s err ] && echo "help: as it should be" || { echo "help: something else"; failed=1; }

cat > one.sql <<'SQL'
CREATE TABLE T (A INTEGER, B VARCHAR(5));
INSERT INTO T VALUES (1, 'x'), (2, NULL);
COMMIT;
SELECT A FROM T WHERE B <> 'y';
SQL
printf -- '-- 1\n00000\n00000 2\n00000\n1\n(1 rows)\n' > wanted
same "one script" 0 one.sql
same "with the fewest frames" 0 --frames=16 one.sql
echo '@2 COMMIT; COMMIT; @flush;' > two.sql
printf -- '-- 1\nERROR 42000 session\n00000\nERROR 42000 session\n' > wanted
same "pieces that begin with @" 1 two.sql
: > none.sql
printf -- '-- 1\n-- 2\n00000\n-- 3\n' > wanted
echo 'ROLLBACK' > three.sql
same "scripts without pieces" 0 none.sql three.sql none.sql
printf 'ERROR X0002\n' > wanted
same "a script that is not there" 3 one.sql missing.sql

# each of 64 scripts reads only; more are refused, where each can be read
scripts=()
for ((k = 1; k <= 64; k++)); do
  scripts+=(three.sql)
done
for ((k = 1; k <= 64; k++)); do printf -- '-- %d\n00000\n' "$k"; done > wanted
same "64 scripts" 0 "${scripts[@]}"
printf 'ERROR X0003 sessions\n' > wanted
same "65 scripts" 1 "${scripts[@]}" three.sql
printf 'ERROR X0002\n' > wanted
same "65 scripts, of which one is not there" 3 "${scripts[@]}" missing.sql

# one script makes a table, and eight store a row each and read: whoever comes too early or beside another is refused, by 42000 name or 40001, and nothing else is
scripts=(made.sql)
echo 'CREATE TABLE T (A INTEGER); COMMIT; INSERT INTO T VALUES (1); COMMIT;' > made.sql
echo 'INSERT INTO T VALUES (2); COMMIT; SELECT COUNT(*) FROM T;' > more.sql
for ((k = 1; k <= 8; k++)); do scripts+=(more.sql); done
"$program" "${scripts[@]}" > out 2> err
found=$?
if [ "$found" -le 1 ] && [ ! -s err ] && ! grep ERROR out | grep -v -q -e '^ERROR 40001$' -e '^ERROR 42000 name$'; then
  echo "scripts that write at once: as it should be"
else
  echo "scripts that write at once: status $found"; cat out err; failed=1
fi

# the deepest and widest queries, each on a thread of its own: one row comes of each
. "$top/bench/deep_texts.sh"
printf -- '-- 1\n00000\n00000 1\n1\n(1 rows)\n' > wanted
deepest_chain "" "" > deep.sql
same "the deepest chain of set operators" 0 deep.sql
deepest_chain "SELECT A FROM T WHERE A IN (" ")" > deep.sql
same "the deepest chain inside IN" 0 deep.sql
deepest_subqueries > deep.sql
same "subqueries in subqueries" 0 deep.sql
widest_query > deep.sql
{
  printf -- '-- 1\n00000\n00000 1\n2'
  for ((k = 1; k < 256; k++)); do printf '|2'; done
  printf '\n(1 rows)\n'
} > wanted
same "the widest query over eight tables" 0 deep.sql

# closed streams: a closed output is refused, and nothing is printed anywhere; a closed input or a closed standard error changes nothing
"$program" one.sql > wanted
# streams NAME STATUS REDIRECTION: runs the program as a shell does that redirects its streams so; it has to end with this status, printing what is wanted where that is 0
streams() {
  local found
  : > out
  bash -c 'exec "$0" one.sql '"$3" "$program" < /dev/null > out 2> err
  found=$?
  if [ "$found" != "$2" ] || [ -s err ]; then
    echo "$1: status $found"; cat err; failed=1
  elif { [ "$2" = 0 ] && ! cmp -s wanted out; } || { [ "$2" != 0 ] && [ -s out ]; }; then
    echo "$1: printed something else"; cat out; failed=1
  else
    echo "$1: as it should be"
  fi
}
streams "closed output" 3 ">&-"
streams "closed input" 0 "<&-"
streams "closed standard error" 0 "2>&-"
streams "input and standard error closed" 0 "<&- 2>&-"
streams "all streams closed" 3 "<&- >&- 2>&-"
"$program" one.sql > /dev/full 2> err
found=$?
if [ "$found" = 3 ]; then echo "output that is refused: as it should be"; else echo "output that is refused: status $found"; failed=1; fi
exit "$failed"
