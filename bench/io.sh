#!/usr/bin/env bash
# Times 1 MiB of line feeds through `read_all` and `write_all` beside `cat` on the same file.
set -euo pipefail
# shellcheck source=bench/timing.sh
source "$(dirname "${BASH_SOURCE[0]}")/timing.sh"
data=$folder/line_feeds
head -c 1048576 /dev/zero | tr '\0' '\n' > "$data"
ratio "read_all and write_all of 1 MiB against cat" \
  "$(seconds 200 "$data" "$bench" io)" "$(seconds 200 "$data" cat)" 10
