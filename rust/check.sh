#!/usr/bin/env bash
# The Rust side's checks: its tests and documentation, and the exported functions under any input, plain and under valgrind. Over the
# static library that `.ci/build library` makes, or the one in the folder YUGLASNO_LIB. Its last line is 'N passed, M failed'; it
# exits non-zero where M is not 0.
set -u
cd "$(dirname "$0")" || exit 1
passed=0
failed=0

# count NAME COMMAND..: one check, counted by its exit status
count() {
  local name=$1
  shift
  if "$@"; then
    passed=$((passed + 1))
    echo "rust: $name: ok"
  else
    failed=$((failed + 1))
    echo "rust: $name: FAILED"
  fi
}

# tests: every test of the crate, counted one by one; a build that fails is one failure
tests() {
  local log status ran
  log=$(mktemp)
  timeout 600 cargo test --offline -q -p yuglasno --no-fail-fast 2>&1 | tee "$log"
  status=${PIPESTATUS[0]}
  ran=$(sed -nE 's/^test result: .* ([0-9]+) passed; ([0-9]+) failed;.*/\1 \2/p' "$log")
  rm -f "$log"
  while read -r good bad; do
    passed=$((passed + ${good:-0}))
    failed=$((failed + ${bad:-0}))
  done <<<"$ran"
  [ "$status" -eq 0 ] || [ "$failed" -gt 0 ] || failed=1
}

finish() {
  echo "$passed passed, $failed failed"
  [ "$failed" -eq 0 ]
  exit
}

command -v cargo >/dev/null || { echo "rust: no cargo on the path"; failed=1; finish; }
if [ -z "${YUGLASNO_LIB:-}" ]; then
  ../.ci/build library || { echo "rust: no static library"; failed=1; finish; }
fi

tests
strace -q true >/dev/null 2>&1 || echo "rust: strace does not work here: the tests that kill archive at each of its calls are left out"
if cargo clippy --version >/dev/null 2>&1; then
  count "nothing newer than rust-version" cargo clippy --offline -q -p yuglasno --all-targets -- -A clippy::all -D clippy::incompatible_msrv
else
  echo "rust: clippy is not there: the check of rust-version is left out"
fi
RUSTDOCFLAGS="-D warnings" count "documentation" cargo doc --offline -q -p yuglasno --lib --no-deps
count "build of the boundary program" cargo build --offline -q --release -p yuglasno --bin boundary
count "exported functions under any input" timeout 300 target/release/boundary 300000 1
if command -v valgrind >/dev/null; then
  count "the same under valgrind" timeout 600 valgrind --error-exitcode=1 -q target/release/boundary 30000 2
else
  echo "rust: valgrind is not there: the run under it is left out"
fi
finish
