#!/usr/bin/env bash
# Times `pec print` on 1 MiB of sections beside 256 KiB: four times the text takes four times the time. Then beside
# `clang-format` on as much C, which is left out where it is missing.
set -euo pipefail
timed=pec
# shellcheck source=bench/timing.sh
source "$(dirname "${BASH_SOURCE[0]}")/timing.sh"

# written SIZE NAME=1: a seeded text of at most SIZE bytes, of sections or in C.
written() {
  awk -v size="$1" -v "$2" -f "$(dirname "${BASH_SOURCE[0]}")/programs.awk"
}

written 1048576 sections=1 > "$folder/large"
written 262144 sections=1 > "$folder/small"
written 1048576 c=1 > "$folder/large.c"
for text in large small; do
  "${bench:?}" print < "$folder/$text" > "$folder/$text.printed"
  # what is printed is printed again as it is
  "$bench" print < "$folder/$text.printed" > "$folder/$text.again"
  cmp "$folder/$text.printed" "$folder/$text.again"
done

four_times "1 MiB of sections printed against 256 KiB" 25 2 "$bench" print
beside_clang_format "1 MiB of sections printed" 0.2 "$bench" print
