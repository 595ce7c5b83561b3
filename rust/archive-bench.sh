#!/usr/bin/env bash
# Measures `transfer archive` beside a plain program that writes and flushes the same files, and prints the table of docs/BENCHMARKS.md.
#
#   [YUGLASNO_LIB=DIR] bash rust/archive-bench.sh [JOBS [BYTES]]
#
# 40,000 jobs of 100 bytes unless it is told otherwise, from the repository's panel over pipes, on the disk of rust/target.
set -euo pipefail
cd "$(dirname "$0")"
jobs=${1:-40000}
bytes=${2:-100}
cargo build --offline --release -q -p yuglasno --bin transfer --bin panel
programs=$PWD/target/release
place=$(mktemp -d "$PWD/target/archive-bench.XXXXXX")
trap 'rm -rf "$place"' EXIT

mkdir "$place/jobs"
python3 - "$place/jobs" "$jobs" "$bytes" <<'PY'
import os, sys
folder, jobs, size = sys.argv[1], int(sys.argv[2]), int(sys.argv[3])
for i in range(jobs):
    path = f"{folder}/{i:05}.job"
    with open(path, "wb") as file:
        file.write((b"%d " % i * (size // 2 + 1))[:size])
    os.utime(path, (10**9 + i, 10**9 + i))
PY
sync

# The plain program: each file made, written, flushed and closed, one after the other; then their folder flushed.
plain() {
  python3 - "$place/jobs" "$place/plain" <<'PY'
import os, sys, time
source, folder = sys.argv[1:]
files = [(name, open(f"{source}/{name}", "rb").read()) for name in sorted(os.listdir(source))]
os.mkdir(folder)
start = time.monotonic()
for name, data in files:
    file = os.open(f"{folder}/{name}", os.O_WRONLY | os.O_CREAT | os.O_EXCL, 0o644)
    os.write(file, data)
    os.fsync(file)
    os.close(file)
folder = os.open(folder, os.O_RDONLY)
os.fsync(folder)
print(f"{time.monotonic() - start:.2f}")
PY
}

archive() {
  "$programs/transfer" --exec "$programs/panel" --folder "$place/jobs" -- --features stat_v2,ls_v2,sendrecv_v2 archive / "$place/dir"
}

# seconds COMMAND..: how long it takes
seconds() {
  local start end
  start=$(date +%s.%N)
  "$@" >"$place/said"
  end=$(date +%s.%N)
  awk -v a="$start" -v b="$end" 'BEGIN {printf "%.2f", b - a}'
}

sums() { (cd "$place/dir" && sha256sum --quiet -c SHA256SUMS); }

written=$(plain)
first=$(seconds archive)
grep -q ": $jobs pulled, 0 there already, 0 left out" "$place/said"
again=$(seconds archive)
grep -q ": 0 pulled, $jobs there already, 0 left out" "$place/said"
verified=$(seconds "$programs/transfer" verify "$place/dir")
summed=$(seconds sums)
cat <<TABLE
| $jobs jobs of $bytes bytes | seconds |
|---|---|
| written and flushed by a plain program, one after the other | $written |
| \`transfer archive\`: pulled, checked, flushed and listed | $first ($(awk -v a="$first" -v b="$written" 'BEGIN {printf "%.2f", a / b}') of it) |
| the same again, nothing to pull | $again |
| \`transfer verify\` | $verified |
| \`sha256sum -c\` | $summed |
TABLE
