#!/usr/bin/env bash
# How long `pec_bench rows` takes for seeded systems of linear rows with small coefficients, beside z3 over the reals.
set -euo pipefail
cd "$(dirname "$0")/.."
# shellcheck source=bench/beside_z3.sh
source bench/beside_z3.sh
status=0
compare rows QF_LRA six 1 400 6 20 1 || status=1
compare rows QF_LRA eight 2 200 8 24 10 || status=1
compare rows QF_LRA twelve 3 100 12 40 0 || status=1
exit "$status"
