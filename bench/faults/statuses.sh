#!/usr/bin/env bash
# Runs the built program for each status but 6, which `faults.py` has, and compares its status, its standard output and its
# standard error with what the README says: what no contract can say of `main`, which hands over the words, the folder,
# the two streams and the key. It prints a line for each case; its status is the number of those that differ.
program=$(readlink -f "${1:?usage: statuses.sh PROGRAM}")
place=$(mktemp -d)
trap 'rm -rf "$place"' EXIT
cd "$place" || exit 1
printf 'inc root a 3\ninc root a 4\n' >good
printf 'inc root a 3\nbogus\n' >bad
printf '[' >boot
usage=$("$program" 2>&1 >/dev/null)
wrong=0

# A name, what came, and what is to come.
told() {
  if [ "$2" = "$3" ]; then
    echo "ok: $1"
  else
    echo "wrong: $1: $2"
    wrong=$((wrong + 1))
  fi
}

# A name, the status, standard output, standard error, and the words.
try() {
  local name=$1 status=$2 out=$3 err=$4
  shift 4
  "$program" "$@" >out 2>err
  told "$name" "$? $(cat out)|$(cat err)" "$status $out|$err"
}

whole=$'# last\nenvoy.a:7|c\n# worker 1: 2 accepted, 0 dropped'
front=$'# last\nenvoy.a:3|c\n# worker 1: 1 accepted, 0 dropped'
none=$'# last\n# worker 1: 0 accepted, 0 dropped'
for command in replay run; do
  try "$command, status 0" 0 "$whole" '' "$command" - good
  try "$command, status 2" 2 '' 'boot: not json' "$command" boot good
  try "$command, status 3" 3 "$front" 'file 1 line 2: no event' "$command" - bad
  try "$command, status 4, a file" 4 "$none" 'file 1: not opened' "$command" - missing
  try "$command, status 4, a bootstrap" 4 '' 'boot: read failed' "$command" missing good
  "$program" "$command" - good >/dev/full 2>err
  told "$command, status 5" "$? $(cat err)" '5 write failed'
  "$program" "$command" - bad >out 2>/dev/full
  told "$command, a failing standard error" "$? $(cat out)" "3 $front"
done
try 'status 1, no words' 1 '' "$usage"
try 'status 1, the first word is not passed over' 1 '' "$usage" - good
try 'status 1, a word that is no text' 1 '' "$usage" replay - $'\xff'
exit "$wrong"
