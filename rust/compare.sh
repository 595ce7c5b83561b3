#!/usr/bin/env bash
# The library beside 000: random lists of calls, document 01's trial pieces, paths with a NUL and banners, the intended differences, and the stored sample.
# Then the same lists with hours, which 000 has not, beside this library without them.
#
#   YUGLASNO_000=DIR [YUGLASNO_LIB=DIR] bash rust/compare.sh [LISTS [SEED]]
#
# 000's source is no part of the repository. Without it (YUGLASNO_000, or ../shared/docs/src) this says so, and only replays the sample.
set -euo pipefail
cd "$(dirname "$0")"
cargo build --offline --release -q -p oracle
oracle=target/release/oracle
if $oracle 2>/dev/null | grep -q 'left out'; then
  exec $oracle replay oracle/recorded.txt
fi
$oracle lists "${1:-20000}" "${2:-1}"
$oracle hours "${1:-20000}" "${2:-1}"
$oracle trials | tail -n 1
$oracle differences | tail -n 1
$oracle record 60 9 | cmp - oracle/recorded.txt
$oracle replay oracle/recorded.txt
