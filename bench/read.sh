#!/usr/bin/env bash
# Times the reader of programs on 1 MiB beside 256 KiB: four times the text takes four times the time. Then beside
# `clang-format` on like statements of C, which is left out where it is missing.
set -euo pipefail
# shellcheck source=bench/timing.sh
source "$(dirname "${BASH_SOURCE[0]}")/timing.sh"

# program SIZE [C]: a seeded program of at most SIZE bytes, or with 1 as the second word a like one in C.
program() {
  awk -v size="$1" -v c="${2:-0}" -f "$(dirname "${BASH_SOURCE[0]}")/programs.awk"
}

program 1048576 > "$folder/large"
program 262144 > "$folder/small"
program 1048576 1 > "$folder/large.c"
for text in large small; do
  answer=$("${bench:?}" read < "$folder/$text")
  if [ "$answer" != program ]; then
    echo "the $text text: $answer" >&2
    exit 1
  fi
done

four_times "a program of 1 MiB against 256 KiB" 25 2 "$bench" read
beside_clang_format "a program of 1 MiB" 1 "$bench" read
