#!/usr/bin/env bash
# Times the reader of rules on 1 MiB of declared names beside 256 KiB, all different and some repeated.
# Four times the names take four times the time, though each is looked for among the others.
set -euo pipefail
# shellcheck source=bench/timing.sh
source "$(dirname "${BASH_SOURCE[0]}")/timing.sh"

# declared SIZE NAMES: a rule whose declarations are SIZE bytes, with so many different names, told in turn again and
# again.
declared() {
  awk -v size="$1" -v names="$2" 'BEGIN {
    printf "stmt"
    for (length_so_far = 6; length_so_far + 9 <= size; length_so_far += 9) printf " N%07d", n++ % names
    print ";\nleft { }\nright { }"
  }'
}

different() { declared "$1" 9999999; }
repeated() { declared "$1" 1000; }

# answers INPUT WANTED: fails where the names are not found to be at fault in the way that is timed.
answers() {
  local said
  said=$("${bench:?}" rules < "$1")
  [ "$said" = "$2" ] || { echo "rules: $said, where this was wanted: $2" >&2; exit 1; }
}

for shape in different repeated; do
  "$shape" 1048576 > "$folder/large"
  "$shape" 262144 > "$folder/small"
  case $shape in
    different) answers "$folder/large" 'refused: ill formed F4' ;;
    repeated) answers "$folder/large" 'refused: ill formed F1' ;;
  esac
  four_times "rules of 1 MiB of names against 256 KiB, $shape" 25 2 "$bench" rules
done
