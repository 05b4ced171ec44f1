#!/usr/bin/env bash
# Times the cut into sections on 1 MiB beside 256 KiB, in three shapes. Four times the text takes four times the time.
set -euo pipefail
# shellcheck source=bench/timing.sh
source "$(dirname "${BASH_SOURCE[0]}")/timing.sh"

# repeated TEXT SIZE: the text again and again, cut at that many bytes.
repeated() {
  (yes "$1" || true) | head -c "$2"
}

one_line_sections() { repeated $'rule a\nx;\nend' "$1"; }
line_feeds() { repeated '' "$1"; }
one_section() {
  echo 'report r'
  repeated 'x := x + 1;' "$1"
  echo
  echo 'end'
}

for shape in one_line_sections line_feeds one_section; do
  "$shape" 1048576 > "$folder/large"
  "$shape" 262144 > "$folder/small"
  four_times "sections of 1 MiB against 256 KiB, $shape" 5 20 "${bench:?}" sections
done
