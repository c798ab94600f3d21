#!/usr/bin/env bash
# Times mm_drive on a trace of 1,000,000 commands: reading, running and printing.
set -eu
cd "$(dirname "$0")/../crates/mm_drive"
[ -x out/mm_drive ] || rt run -- --plan nogc --heap 4 data/first.trace > /dev/null
trace=$(mktemp)
trap 'rm -f "$trace"' EXIT
awk 'BEGIN {
  srand(1)
  print "mmtrace 1"
  for (k = 1; k <= 1000000; k++) {
    d = int(rand() * 16); s = int(rand() * 16); i = int(rand() * 4); n = int(rand() * 100); x = rand()
    if (x < 0.1) print "new r" d " " i " " 4 - i
    else if (x < 0.3) print "read r" s " " i
    else if (x < 0.5) print "write r" s " " i " " n
    else if (x < 0.7) print "get r" d " r" s " " i
    else if (x < 0.9) print "put r" d " " i " r" s
    else if (x < 0.95) print "move r" d " r" s
    else print "share g" d " r" s
  }
}' > "$trace"
for run in 1 2 3 4 5; do
  start=$(date +%s%N)
  out/mm_drive --plan nogc --heap 1024 "$trace" > /dev/null
  end=$(date +%s%N)
  echo "run $run: $(((end - start) / 1000000)) ms, $((1000000000 / ((end - start) / 1000))) thousand commands a second"
done
