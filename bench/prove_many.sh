#!/usr/bin/env bash
# Times `pec prove` on 2,000 rules beside 500: four times the rules take four times the time, though each title is
# looked for among the others.
set -euo pipefail
timed=pec
# shellcheck source=bench/timing.sh
source "$(dirname "${BASH_SOURCE[0]}")/timing.sh"

# rules COUNT: so many rules of different titles, which are proved.
rules() {
  awk -v count="$1" 'BEGIN {
    for (k = 1; k <= count; k++)
      printf "rule r%d\nstmt S T U;\nleft { S; skip; T; U; S; skip; }\nright { skip; S; T; skip; U; S; }\nend\n", k
  }'
}

rules 2000 > "$folder/large"
rules 500 > "$folder/small"
"${bench:?}" prove < "$folder/large" | grep -qx "proved 2000"
"$bench" prove < "$folder/small" | grep -qx "proved 500"

four_times "2,000 rules proved against 500" 25 10 "$bench" prove
