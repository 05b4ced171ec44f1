#!/usr/bin/env bash
# Times the walk over a side of 8 `if`s, which has 256 paths, beside that over one of 64 `if`s, which has 2^64 walks and
# passes a limit: the limit is to be met in no more than twice the time.
set -euo pipefail
# shellcheck source=bench/timing.sh
source "$(dirname "${BASH_SOURCE[0]}")/timing.sh"

# tests COUNT: the body of a rule whose left side has so many `if`s.
tests() {
  awk -v count="$1" 'BEGIN {
    print "test B;\nleft {"
    for (i = 0; i < count; i++) print "  if B { } else { }"
    print "}\nright { }"
  }'
}

# answers INPUT LINE: what the bench program has to say of it.
answers() {
  local answer
  answer=$("${bench:?}" paths 1 < "$1")
  if [ "$answer" != "$2" ]; then
    echo "$1: $answer, not $2" >&2
    exit 1
  fi
}

tests 8 > "$folder/eight"
tests 64 > "$folder/sixty_four"
answers "$folder/eight" "paths 256"
answers "$folder/sixty_four" "limit Paths"
ratio "a side of 64 ifs, a limit, against one of 8, 256 paths; 200 times each" \
  "$(processor_seconds 5 1 "$folder/sixty_four" "$bench" paths 200)" \
  "$(processor_seconds 5 1 "$folder/eight" "$bench" paths 200)" 2
