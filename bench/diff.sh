#!/usr/bin/env bash
# How long `pec_bench diff` takes for seeded systems of rows, beside z3, which reads them as difference logic.
set -euo pipefail
cd "$(dirname "$0")/.."
# shellcheck source=bench/beside_z3.sh
source bench/beside_z3.sh
status=0
compare diff QF_IDL small 1 1000 200 2000 20 || status=1
compare diff QF_IDL large 2 5 5000 50000 5 || status=1
exit "$status"
