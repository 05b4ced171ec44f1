#!/usr/bin/env bash
# Times the runner on 1,000,000 steps of three loop programs beside the same loops in python3, written in two ways: with
# the cells in a dict by name and indices, which is a store as the language has it, and with plain variables and lists.
# Then 4 times the steps.
set -euo pipefail
# shellcheck source=bench/timing.sh
source "$(dirname "${BASH_SOURCE[0]}")/timing.sh"

# program LOOP SCALE: 1,000,000 steps, or SCALE times as many.
program() {
  case $1 in
    scalars) echo "while i < $((1000000 * $2 / 3)) { i := i + 1; s := s + i; }" ;;
    array) echo "skip; for i = 0 to $((500000 * $2 - 2)) { a[i] := i * i; }" ;;
    nested) echo "skip; for i = 0 to $((998 * $2)) { for j = 0 to 499 { a[i, j] := i + j; } }" ;;
  esac
}

cat > "$folder/loops.py" << 'PYTHON'
import sys
import time


def scalars_cells():
    cells = {}
    cells["i", ()] = 0
    cells["s", ()] = 0
    while cells["i", ()] < 333333:
        cells["i", ()] = cells["i", ()] + 1
        cells["s", ()] = cells["s", ()] + cells["i", ()]
    return cells["s", ()]


def scalars_plain():
    i = 0
    s = 0
    while i < 333333:
        i = i + 1
        s = s + i
    return s


def array_cells():
    cells = {}
    for i in range(499998):
        cells["i", ()] = i
        cells["a", (cells["i", ()],)] = cells["i", ()] * cells["i", ()]
    return cells["a", (499997,)]


def array_plain():
    a = [0] * 499998
    for i in range(499998):
        a[i] = i * i
    return a[499997]


def nested_cells():
    cells = {}
    for i in range(998):
        cells["i", ()] = i
        for j in range(499):
            cells["j", ()] = j
            cells["a", (cells["i", ()], cells["j", ()])] = cells["i", ()] + cells["j", ()]
    return cells["a", (997, 498)]


def nested_plain():
    a = [[0] * 499 for _ in range(998)]
    for i in range(998):
        for j in range(499):
            a[i][j] = i + j
    return a[997][498]


# the least processor time of five, without the start of python3
def least(loop):
    times = []
    for _ in range(5):
        start = time.process_time()
        loop()
        times.append(time.process_time() - start)
    return min(times)


print(least(globals()[sys.argv[1]]))
PYTHON

# beside NAME OURS THEIRS LEAST: how many times as fast it is, and whether that is at least LEAST.
beside() {
  awk -v name="$1" -v ours="$2" -v theirs="$3" -v least="$4" \
    'BEGIN { r = theirs / ours
      printf "%s: %.4f s, python3 %.4f s, %.1f times as fast (at least %s)\n", name, ours, theirs, r, least
      exit r < least }'
}

status=0
for loop in scalars array nested; do
  program "$loop" 1 > "$folder/small"
  program "$loop" 4 > "$folder/large"
  answer=$("${bench:?}" run 1000000 < "$folder/small")
  case $answer in
    "ended 1000000 "*) ;;
    *)
      echo "$loop: $answer" >&2
      exit 1
      ;;
  esac
  ours=$(processor_seconds 5 1 "$folder/small" "$bench" run 1000000)
  beside "$loop, cells in a dict" "$ours" "$(python3 "$folder/loops.py" "${loop}_cells")" 5 || status=1
  beside "$loop, plain variables and lists" "$ours" "$(python3 "$folder/loops.py" "${loop}_plain")" 0
  four_times "$loop, 4 times the steps" 5 1 "$bench" run 4000000 || status=1
done
exit "$status"
