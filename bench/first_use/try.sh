#!/usr/bin/env bash
# Tries the script ./envoy_stats on a copy of this repository, with a stand-in for rt that proves nothing and takes a second
# for each crate that it is called for. It prints a line for each case, and the status is the number of cases that went wrong.
set -u
here=$(dirname "$(readlink -f "${BASH_SOURCE[0]}")")
place=$(mktemp -d)
trap 'rm -rf "$place"' EXIT
mkdir "$place/bin"
cat >"$place/bin/rt" <<'STANDIN'
#!/usr/bin/env bash
name=$(basename "$PWD")
# As rt does, it proves the crates below with the one that it is called for, and tells each.
prove() {
  for crate in $(awk -F: -v top="$name" '{ sub(/#.*/, "") } NF == 2 { below[$1] = $2 }
    function visit(name, parts, count, i) {
      if (seen[name]++) return
      count = split(below[name], parts, " ")
      for (i = 1; i <= count; i++) if (parts[i] in below) visit(parts[i])
      print name
    }
    END { visit(top) }' ../../crates.txt); do
    echo "crate $crate: modules loaded=0 checked=1"
    if [ "$crate" = "${BAD:-}" ]; then echo logic=not-proved; exit 1; fi
    echo logic=proved
  done
}
case $1 in
  lib) sleep "${SECONDS_EACH:-1}"; prove ;;
  try) shift; echo "tried $@"; exit 4 ;;
  run)
    prove
    mkdir -p out; printf '#!/bin/sh\necho "ran $@"\nexit 3\n' >out/envoy_stats; chmod +x out/envoy_stats ;;
esac
STANDIN
chmod +x "$place/bin/rt"
PATH=$place/bin:$PATH
top=$place/repository
mkdir "$top"
(cd "$here/../.." && tar -c --exclude=./.git --exclude=out .) | tar -x -C "$top"
wrong=0

# A case: what it is, the wanted status, a text that the output has, and one that it has not.
try() {
  local case=$1 status=$2 has=$3 lacks=$4 got
  shift 4
  "$@" >"$place/said" 2>&1 </dev/null
  got=$?
  if [ "$got" = "$status" ] && grep -q -- "$has" "$place/said" && ! grep -q -- "$lacks" "$place/said"; then
    echo "ok: $case"
  else
    echo "WRONG: $case: status $got"
    sed 's/^/  /' "$place/said"
    wrong=$((wrong + 1))
  fi
}

none='no such text'
source=$top/crates/stat_defs/src/ids.rt
try 'a fresh copy is proved and built, and the words are given on' 3 'ran replay - a b' "$none" "$top/envoy_stats" replay - 'a b'
try 'it tells each crate, and the program last' 3 'proved crate \([0-9]*\) of \1, envoy_stats;' "$none" sh -c "rm $top/crates/envoy_stats/out/script.sum; $top/envoy_stats check -"
try 'it says so before it builds' 3 'proved and built first' "$none" sh -c "rm $top/crates/envoy_stats/out/script.sum; $top/envoy_stats check -"
try 'and corrects how long it will take' 3 'minutes gone, about [0-9]* to go' "$none" sh -c "rm $top/crates/envoy_stats/out/script.sum; $top/envoy_stats check -"
rm "$top/crates/envoy_stats/out/script.sum"
usage=$(sed -n 's/^ *b"\(usage: .*\)\\n";$/\1/p' "$top/crates/command_tests/src/limits.rt")
try 'the usage is the one that the tests of the program have' 0 '^same$' "$none" \
  sh -c "[ \"\$($top/envoy_stats --help 2>&1)\" = '$usage' ] && echo same"
while read -r line; do
  eval "words=($line)"
  try "no command, told before anything is built: ${words[*]}" 1 '^usage: ' 'proved' "$top/envoy_stats" "${words[@]}"
done <<'WORDS'

--help
-h
--version
run
run -
run - -f
chek -
check
check - -
check ''
check -x
bins
bins 00
bins +1
bins 18446744073709551616
bins 99999999999999999999
bins 1 x
replay
replay -
replay - -f
replay - ''
replay --symbols --symbols - f
replay --format text - f
replay --format - f
replay --format prom --format prom - f
replay --format=prom - f --format admin
replay --format= - f
replay --format -- - f
replay - f --symbols --symbols
replay --symbols=x - f
replay --run - f
replay -- -
-- replay - f
check --symbols -
load
load 1
load 0 1
load 33 1
load 1 0
load 1 131073
load 01 1
load 1 1 1
load --symbols 1 1
load --run --run 1 1
WORDS
sum=$top/crates/envoy_stats/out/script.sum
while read -r line; do
  rm -f "$sum"
  eval "words=($line)"
  try "a command is built for: ${words[*]}" 3 'proved and built first' '^usage: ' "$top/envoy_stats" "${words[@]}"
done <<'WORDS'
bins 18446744073709551615 0
replay --format admin --symbols - 'a b' f
run - f
check boot
check -- -x
replay - f --symbols
replay - --format=prom f
replay - f - -- --symbols --
load 32 131072
load 3 1 --run
WORDS
try 'nothing is proved again' 3 'ran x' 'proved' "$top/envoy_stats" x
try 'a lowest crate that is not proved' 70 'crate stat_defs is not proved' 'ran' sh -c "rm $top/crates/envoy_stats/out/script.sum; BAD=stat_defs $top/envoy_stats check -"
try 'and then it is proved' 3 'ran check -' "$none" "$top/envoy_stats" check -
try 'a try proves nothing, and names its files anew' 4 "tried --data file1=$top/README.md --data file2=$top/HANDLES -- replay file1 file2 a b" 'proved crate' sh -c "cd $top && ./envoy_stats --try replay README.md HANDLES 'a b'"
try 'other words stay, though they are names of files' 4 'tried -- bins 7' 'data' sh -c "cd $place && touch 7 bins && $top/envoy_stats --try bins 7"
try 'words that are no command stay' 4 'tried -- replay README.md' 'data' sh -c "cd $top && ./envoy_stats --try replay README.md"
try 'from another folder' 3 'ran x' 'proved' sh -c "cd / && $top/envoy_stats x"
touch "$source"
try 'a new time of a file is no change' 3 'ran x' 'proved' "$top/envoy_stats" x
echo '// changed' >>"$source"
touch -d 2001-01-01 "$source"
try 'a change is seen though its file is older than the program' 3 'proved crate' "$none" "$top/envoy_stats" check -
echo '// changed' >>"$source"
try 'a crate that is not proved' 70 'crate stat_book is not proved' 'ran' env BAD=stat_book "$top/envoy_stats" check -
try 'and then it is' 3 'ran check -' "$none" "$top/envoy_stats" check -

echo '// changed' >>"$source"
SECONDS_EACH=60 "$top/envoy_stats" check - >/dev/null 2>&1 &
interrupted=$!
sleep 2
kill -TERM "$interrupted"
wait "$interrupted"
try 'an interrupted build has the status of its signal' 0 '^143$' "$none" echo $?
try 'and leaves no process' 0 '^0$' "$none" sh -c 'pgrep -ax sleep | grep -c "sleep 60"; true'
try 'and nothing that matters' 3 'ran check -' "$none" "$top/envoy_stats" check -

echo '// changed' >>"$source"
"$top/envoy_stats" check first >"$place/first" 2>&1 &
sleep 1
try 'a second build waits for the first' 3 'waiting for it' 'proved crate' "$top/envoy_stats" check second
wait $!
try 'which was made meanwhile' 0 'ran check first' "$none" cat "$place/first"

try 'no rt' 70 'rt is not on the PATH' "$none" sh -c "echo >>$source; PATH=/usr/bin:/bin $top/envoy_stats check -"
mv "$top/crates/envoy_stats/out" "$place/out"
: >"$top/crates/envoy_stats/out"
try 'a folder that cannot be written' 70 'cannot be written' "$none" "$top/envoy_stats" check -
rm "$top/crates/envoy_stats/out"
mv "$place/out" "$top/crates/envoy_stats/out"
"$top/envoy_stats" check - >/dev/null 2>&1
# The script's own time, where the program is built: at most 0.15 seconds on a machine that does nothing else.
began=$(date +%s%N)
for _ in 1 2 3 4 5 6 7 8 9 10; do "$top/envoy_stats" x >/dev/null 2>&1; done
echo "the script takes $((($(date +%s%N) - began) / 10000000)) ms a call"
exit "$wrong"
