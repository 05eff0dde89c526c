#!/usr/bin/env bash
# Shows that an event on a name that is held takes no memory, and that the key of the hash is drawn and used: of neither
# can a contract speak. It needs a C compiler, valgrind, and Linux for LD_PRELOAD. Its status is the number of cases that
# differ.
#
# Allocations are counted by the shim `counts.c`, since the program's allocator calls malloc or realloc for each of them.
# Two files have the same three names, a counter, a gauge and a histogram, the longer one 17,000 events more of each. Both
# have between 65,536 and 131,072 events, so that the list of verdicts, which doubles its room, grew as often. What is
# left is the events themselves: both runs make exactly as many allocations if and only if none of the 51,000 takes
# memory. An allocation failing in their midst would show less: a hit that copies its texts, and goes on where there is
# no memory for the copy, answers as it should.
#
# The key is drawn by one call of getentropy a run. The shim can answer with a byte that is said: under two keys the
# tables are searched in two orders, and valgrind counts other numbers of instructions, under one key twice the same.
program=$(readlink -f "${1:?usage: hits.sh PROGRAM}")
here=$(dirname "$(readlink -f "$0")")
place=$(mktemp -d)
trap 'rm -rf "$place"' EXIT
cd "$place" || exit 1

# So many events on three names. A short text lies in its value and takes no memory, so the label and the names are long.
hits() {
  local label=a_label_that_operators_write
  local name=a_name_that_operators_write
  echo "open $label edge"
  yes "inc $label $name 1"$'\n'"add $label $name acc 1"$'\n'"rec $label $name 1" | head -n "$1"
}

cc -shared -fPIC -O1 -o counts.so "$here/counts.c" -ldl || exit 1
hits 69000 >short
hits 120000 >long
seq 1 300 | sed 's/.*/inc root name.& 1/' >names
wrong=0

# A name, what came, and what is to come.
told() {
  if [ "$2" = "$3" ]; then
    echo "ok: $1"
  else
    echo "wrong: $1: $2, and not $3"
    wrong=$((wrong + 1))
  fi
}

# The allocations and the draws of a command over a file.
counts() {
  LD_PRELOAD=$place/counts.so COUNTS=$place/counts "$program" "$1" - "$2" >/dev/null || echo "failed over $2"
  cat counts
}

# The instructions of a replay of many names whose key has this byte.
under_key() {
  LD_PRELOAD=$place/counts.so DRAWN=$1 valgrind --tool=cachegrind --cache-sim=no --cachegrind-out-file=/dev/null \
    "$program" replay - names 2>&1 >/dev/null | sed -n 's/.*refs: *//p'
}

for command in replay run; do
  short=$(counts "$command" short)
  long=$(counts "$command" long)
  told "$command: 51,000 hits take no memory" "$long" "$short"
  told "$command: one key is drawn" "${short#* }" 1
done
first=$(under_key 1)
second=$(under_key 2)
told 'the key 1 makes the same run twice' "$(under_key 1)" "${first:-a count}"
[ -n "$second" ] && [ "$second" != "$first" ]
told 'the key 2 makes another run' $? 0
exit "$wrong"
