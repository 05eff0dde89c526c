#!/usr/bin/env bash
# Runs the program over the examples and compares what it writes with the outputs that stand beside them, and these
# files with the texts that the tests have. It prints a line for each, and its status is the number of those that
# differ. With the word `texts` it prints the texts that the tests are to have.
cd "$(dirname "$(readlink -f "${BASH_SOURCE[0]}")")/../../../.." || exit 1
wrong=0
told() {
  if [ "$1" -eq 0 ]; then
    echo "ok: $2"
  else
    echo "wrong: $2"
    wrong=$((wrong + 1))
  fi
}
try() {
  local wanted=$1
  shift
  ./envoy_stats "$@" 2>&1 | cmp -s - "examples/$wanted"
  told $? "$wanted"
}
texts() {
  local file head
  echo '//! Files of `examples/` to the letter: `examples/try.sh texts` prints this file.'
  for file in edge.json web.events api.events tags.json tags.events edge.{statsd,admin} tags.{statsd,prom,symbols}; do
    head="pub const $(tr a-z. A-Z_ <<<"$file"): &str = r#\"$(head -n 1 "examples/$file")"
    # A line that is too long is broken, as `rt fmt` does.
    [ "${#head}" -le 100 ] || head=${head/= r/=$'\n'    r}
    printf '\n%s\n' "$head"
    tail -n +2 "examples/$file"
    echo '"#;'
  done
}
if [ "$1" = texts ]; then
  texts
  exit
fi
for format in statsd prom admin; do
  try "edge.$format" replay --format "$format" examples/edge.json examples/web.events examples/api.events
  try "run.$format" run --format "$format" examples/run.json examples/{east,west}.events
done
for format in statsd prom; do
  try "tags.$format" replay --format "$format" examples/tags.json examples/tags.events
done
try tags.symbols replay --symbols --format admin examples/tags.json examples/tags.events
texts | cmp -s - crates/test_support/src/example_texts.rt
told $? example_texts.rt
exit "$wrong"
