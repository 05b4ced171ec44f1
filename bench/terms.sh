#!/usr/bin/env bash
# Times the counts and the universe of an obligation at its limits, 4,096 nodes with 48 store terms and 32 readings,
# each as a ratio to one walk over the same terms that counts their nodes.
set -euo pipefail
# shellcheck source=bench/timing.sh
source "$(dirname "${BASH_SOURCE[0]}")/timing.sh"

# obligation NODES STORES NAMES: literals of reads at stores that are runs behind runs, up to that many nodes.
obligation() {
  awk -v nodes="$1" -v stores="$2" -v names="$3" '
    function run(k, text) { text = "L"; while (k-- > 0) text = "run2 " text; return text }
    BEGIN {
      printf "| | "
      for (i = 0; ; i++) {
        k = (i * 7) % stores
        size = 2 * (k + 2) + 1
        if (used + size > nodes) break
        used += size
        printf "+value get%d %s get%d %s ", i % names, run(k), (i + 1) % names, run(k)
      }
      while (used + 2 <= nodes) { printf "+ends L "; used += 2 }
      if (used < nodes) printf "+names "
      print "|"
    }'
}

# each TIMES INPUT WHAT: the seconds of one of so many.
each() {
  processor_seconds 15 1 "$2" "${bench:?}" terms "$3" "$1" | awk -v times="$1" '{ print $1 / times }'
}

# beside NAME WHAT TIMES INPUT: against a walk, and against a tenth of a second.
beside() {
  local walk took
  walk=$(each 20000 "$4" walk)
  took=$(each "$3" "$4" "$2")
  awk -v name="$1" -v took="$took" -v walk="$walk" 'BEGIN {
    printf "%s: %.6f s, a walk %.8f s, ratio %.0f (below 2000)\n", name, took, walk, took / walk
    exit took >= 0.1 || took / walk >= 2000
  }'
}

obligation 4096 48 32 > "$folder/obligation"
status=0
beside "counts of 4,096 nodes" counts 20 "$folder/obligation" || status=1
beside "universe of 48 stores and 32 readings" universe 20 "$folder/obligation" || status=1
exit "$status"
