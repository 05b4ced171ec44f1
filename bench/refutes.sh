#!/usr/bin/env bash
# Times a leaf of 4,000 steps against one of 1,000, and says how many steps a second `refutes` looks at; where metamath
# is installed, beside the steps a second that it verifies of theorems of as many steps. Then 47,600 splits in splits,
# as many as 1 MiB of text holds, against 11,900: made and looked at, and copied and dropped.
set -euo pipefail
# shellcheck source=bench/timing.sh
source "$(dirname "${BASH_SOURCE[0]}")/timing.sh"

# looks STEPS TIMES: the seconds of so many looks at a leaf of so many steps.
looks() {
  processor_seconds 7 1 /dev/null "${bench:?}" refutes leaf "$1" "$2"
}

# verifies FILE: the seconds in which metamath reads the file and verifies all that is in it, which it must.
verifies() {
  metamath "read \"$1\"" "verify proof *" exit | grep "All proofs in the database were verified" > /dev/null || return 1
  processor_seconds 3 1 /dev/null metamath "read \"$1\"" "verify proof *" exit
}

# splits WHAT SHAPE: what is done once with 47,600 splits, each in a branch of the one before, against 11,900 of them.
splits() {
  ratio "$1 of 47,600 splits in the $2 branch, against 11,900" \
    "$(processor_seconds 5 1 /dev/null "${bench:?}" "$1" "$2" 47600 10)" \
    "$(processor_seconds 5 1 /dev/null "${bench:?}" "$1" "$2" 11900 10)" 6
}

small=$(looks 1000 4000)
large=$(looks 4000 4000)
status=0
ratio "4,000 looks at a leaf of 4,000 steps, against one of 1,000" "$large" "$small" 6 || status=1
awk -v large="$large" 'BEGIN { printf "%.0f steps a second\n", 4000 * 4000 / large }'
for shape in first second; do
  splits refutes "$shape" || status=1
  splits copies "$shape" || status=1
done
if command -v metamath > /dev/null; then
  theorems 50 4000 > "$folder/theorems.mm"
  took=$(verifies "$folder/theorems.mm")
  awk -v took="$took" -v large="$large" 'BEGIN {
    printf "metamath, 50 theorems of 4,000 steps: %.4f s, %.0f steps a second; refutes is %.1f times as fast\n",
      took, 50 * 4000 / took, (4000 * 4000 / large) / (50 * 4000 / took)
  }'
fi
exit "$status"
