#!/usr/bin/env bash
# Times `pec check` on 1 MiB of certificates beside 256 KiB: four times the bytes take four times the time. Where
# metamath is installed, beside the bytes a second that it reads and verifies of a file of theorems of the same
# size. The certificates are those of rules/certificates.pec that are valid, again and again behind their rules.
set -euo pipefail
timed=pec
# shellcheck source=bench/timing.sh
source "$(dirname "${BASH_SOURCE[0]}")/timing.sh"
rows=$(dirname "${BASH_SOURCE[0]}")/../rules/certificates.pec

# certificates BYTES: the rules of the rows, and their certificates so often that there are at most so many bytes.
certificates() {
  awk -v most="$1" '
    /^# / { exit }
    /^rule / { into = 1 }
    /^cert / { into = 2 }
    { text[into] = text[into] $0 "\n" }
    END {
      printf "%s", text[1]
      for (size = length(text[1]) + length(text[2]); size <= most; size += length(text[2])) printf "%s", text[2]
    }' "$rows"
}

certificates 1048576 > "$folder/large"
certificates 262144 > "$folder/small"
"${bench:?}" check < "$folder/large" | grep -qx "not valid 0"
"$bench" check < "$folder/small" | grep -qx "not valid 0"
four_times "1 MiB of certificates against 256 KiB" 5 1 "$bench" check
if command -v metamath > /dev/null; then
  # each of these theorems has some 44,000 bytes
  theorems 23 4000 > "$folder/theorems.mm"
  metamath "read \"$folder/theorems.mm\"" "verify proof *" exit |
    grep "All proofs in the database were verified" > /dev/null
  took=$(processor_seconds 3 1 /dev/null metamath "read \"$folder/theorems.mm\"" "verify proof *" exit)
  ours=$(processor_seconds 5 1 "$folder/large" "$bench" check)
  awk -v took="$took" -v ours="$ours" -v a="$(stat -c %s "$folder/theorems.mm")" \
    -v b="$(stat -c %s "$folder/large")" '
    BEGIN {
      printf "metamath, %d bytes of theorems: %.4f s, %.0f bytes a second; ", a, took, a / took
      printf "check, %d bytes of certificates: %.4f s, %.0f bytes a second, ", b, ours, b / ours
      printf "%.1f times as many\n", (b / ours) / (a / took)
    }'
fi
