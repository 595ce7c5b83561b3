#!/usr/bin/env bash
# Measures the library beside 000, as the kit at hand has built it, and writes docs/BENCHMARKS.md.
#
#   YUGLASNO_000=DIR [YUGLASNO_LIB=DIR] bash rust/bench.sh
#
# Needs 000's source, valgrind, python3, size and nm. Instructions are counted by callgrind and repeat exactly; times do not.
set -euo pipefail
cd "$(dirname "$0")"
lib=${YUGLASNO_LIB:-../target/staticlib}/libexports.a
cargo build --offline --release -q -p oracle
oracle=target/release/oracle
if $oracle 2>/dev/null | grep -q 'left out'; then
  $oracle
  exit 0
fi

# count NAME SIDE PERCENT: items, reads and instructions of one run
count() {
  valgrind --tool=callgrind --callgrind-out-file=/dev/null --toggle-collect="*measured_$2*" $oracle bench "$1" "$2" "$3" 2>&1 |
    awk '/ items, / {items = $3; reads = $5} /Collected/ {print items, reads, $4}'
}

# row NAME UNIT SMALL LARGE: the row of a case, from two sizes in percent, the second ten times the first
row() {
  local cells="" side a b
  for side in theirs ours floor; do
    read -r -a a <<<"$(count "$1" $side "$3")"
    read -r -a b <<<"$(count "$1" $side "$4")"
    cells+=" ${a[*]} ${b[*]}"
  done
  awk -v name="$1" -v unit="$2" -v cells="$cells" 'BEGIN {
    split(cells, c, " ")
    of = unit == "read" ? 2 : 1
    for (side = 0; side < 3; side++) {
      k = 6 * side
      each[side] = (c[k + 6] - c[k + 3]) / (c[k + 3 + of] - c[k + of])
      growth[side] = c[k + 6] / c[k + 3]
    }
    printf "| %s | %s | %.1f | %.1f | %.2f ", name, unit, each[0], each[1], each[1] / each[0]
    printf "| %.1f | %.2f | %.2f |\n", each[2], growth[0], growth[1]
  }'
}

instructions() {
  echo "| work | unit | 000 | here | here / 000 | channel alone | ten times as much: 000 | here |"
  echo "|---|---|---|---|---|---|---|---|"
  local name
  for name in pull_16384 pull_512 pull_64 pull_1 pull_v2_16384 pull_v2_512 pull_v2_64 pull_v2_1; do row $name read 2 16; done
  for name in push_65544 push_4096 push_v2_65544 push_v2_4096; do row $name message 2 16; done
  for name in list_65544 list_4096 list_v2_65544 list_v2_4096; do row $name entry 1 10; done
  for name in stat_65544 stat_4096 stat_v2_65544 stat_v2_4096; do row $name stat 1 10; done
}

# The instructions of yuglasno_read and what it calls, for one report of the pull of 4 MiB in reads of 64 bytes, every read reported.
report() {
  valgrind --tool=callgrind --callgrind-out-file=/dev/null --toggle-collect=yuglasno_read $oracle bench pull_64 single 100 2>&1 |
    awk '/ items, / {reads = $5} /Collected/ {printf "%d reports, %.1f instructions each\n", reads, $4 / reads}'
}

library() {
  python3 ../tests/size.py table
  echo
  echo "What it calls outside itself: $(nm -u "$lib" | awk '$1 == "U" {print "`" $2 "`"}' | sort -u | paste -sd' ')."
  if nm "$lib" | grep -iqE 'alloc|malloc|calloc|free$|brk|mmap'; then
    echo "It NAMES AN ALLOCATOR."
  else
    echo "No symbol of an allocator."
  fi
}

# times BESIDE UNIT LAST WORDS..: the table that `oracle bench WORDS` prints, by five processes: of each row the one with the middle ratio,
# and the least and the greatest ratio; without the last column where LAST is empty
times() {
  local beside=$1 unit=$2 last=$3 i
  shift 3
  for i in 1 2 3 4 5; do $oracle bench "$@"; done | awk -F' *[|] *' -v beside="$beside" -v unit="$unit" -v last="$last" '
    $2 == "work" || $2 ~ /^-/ {next}
    !($2 in seen) {order[++rows] = $2}
    {line[$2, ++seen[$2]] = $3 " " $4 " " $5 " " $6}
    END {
      printf "| work | %s, %s | here, %s | here / %s | least | greatest |", beside, unit, unit, beside
      print last == "" ? "" : " " last ", " unit " |"
      print "|---|---|---|---|---|---|" (last == "" ? "" : "---|")
      for (r = 1; r <= rows; r++) {
        n = seen[order[r]]
        for (i = 1; i <= n; i++) {split(line[order[r], i], c, " "); ratio[i] = c[3] + 0; of[i] = i}
        for (i = 2; i <= n; i++) for (j = i; j > 1 && ratio[of[j]] < ratio[of[j - 1]]; j--) {t = of[j]; of[j] = of[j - 1]; of[j - 1] = t}
        split(line[order[r], of[int((n + 1) / 2)]], c, " ")
        printf "| %s | %s | %s | %s | %.2f | %.2f |", order[r], c[1], c[2], c[3], ratio[of[1]], ratio[of[n]]
        print last == "" ? "" : " " c[4] " |"
      }
    }'
}

page=../docs/BENCHMARKS.md
{
  printf '# Benchmarks\n\nMeasured with the kit %s.\n\n' "$(rt version)"
  cat <<'TEXT'
The library beside 000 (the Rust of tarigo/libadb that it was carried over from), on the same scripted bytes, written by `rust/bench.sh`. Both are called from one program,
release build; 000 is compiled with it in one unit, so that its small functions are inlined, and its listing gathers entries in a `Vec`,
where here each is handed out. The channel is the same code for both; "channel alone" asks it the same reads and writes in a bare loop.

* pull_N: a job of 4 MiB in messages of 65,536 bytes, in reads of at most N bytes, capacity 65,544.
* push_C: 4 MiB in one call, capacity C: at 65,544 each message is composed, at 4,096 it goes out in pieces.
* list_C: a listing of 40,000 entries, names of 12 bytes, reads of at most 16 KiB, capacity C.
* stat_C: 40,000 stats, each reply coming only once its request was written, capacity C.

## Instructions

Counted by callgrind for one unit: the difference between two sizes, divided by their difference in units. The last two columns are the
whole run at ten times the size, over the run: 10 where the cost grows with the work alone, less where a start and an end weigh in.

TEXT
  instructions
  cat <<'TEXT'

Reads are gathered until what the session wants has come, as the Rust crate does. Where every read is reported by itself, a report of the
pull in reads of 64 bytes costs, within `yuglasno_read` and all that it calls (nearly all of them leave their need short):
TEXT
  echo "$(report)"
  cat <<'TEXT'
(`valgrind --tool=callgrind --toggle-collect=yuglasno_read rust/target/release/oracle bench pull_64 single 100`).

A long copy by the processor's string move counts an instruction for each byte, one in wider moves far fewer: compare the large reads and
the composed push by their times.
A stat takes more instructions here and less time: each of its three crossings tests the record, and its path is copied in a short loop.

## Time

The shortest of sixty runs of each side, in turn, by each of five processes: of the five, the one with the middle ratio, and the least and
the greatest ratio (the buffers lie elsewhere in each process). On busy cores the ratio of one row has moved by a factor of two between two
runs of this script, so these are worth something only from idle cores; the instructions repeat exactly.

TEXT
  times 000 ms 'channel alone'
  cat <<'TEXT'

## The index

000 has no index: beside it stands a sorted `Vec` of times, starts and lengths, with the names in a buffer of their own, as a program in
Rust would write it (`partition_point` and `insert`). Both are handed the same replies and asked the same, at 4,096 entries with names
of 12 bytes. The `Vec` is searched by halves; the slots are gone through from the back, one by one. The last column is what 4,096 entries
in any order, and one query, may take at most: 20 ms and 0.1 ms. Times as above, but in microseconds.

* fill_ORDER: 4,096 entries in this order of their times, into an empty index.
* between_all: from the earliest time to the latest: the slots are gone through to their front, once.
* between_none, latest_earliest: a time before the earliest, and the latest at the time of the earliest: to their front twice.
* between_all_read: the first query, then each of its 4,096 entries with its name.

TEXT
  times 'sorted Vec' µs 'at most' index
  cat <<'TEXT'

## The panel's side

000 writes no replies and reads no requests of a host: beside it stands plain Rust written for this bench (`to_le_bytes`, `copy_from_slice`
into a slice, ids from the same table). Both write and read the same bytes, which is tested before they are timed. The plain code takes its
table of ids as it is; `yuglasno_speak` and `yuglasno_heard` keep nothing between two calls, so each tests all fifteen ids for their form
and against each other, which is nearly all of a short row. Both test a path for a NUL. Times as above, but in nanoseconds of one call, of a
thousand in each run.

* say_stat, say_okay: a STAT, an OKAY.
* say_entry_v2: an entry of a v2 listing with a name of 30 bytes.
* say_data: a DATA of 65,536 bytes.
* hear_stat: a STAT request with a path of 30 bytes.
* hear_data: a DATA of 65,536 bytes, of which both look at the header alone.

TEXT
  times 'plain Rust' ns '' panel
  cat <<'TEXT'

## The library

TEXT
  library
  cat <<'TEXT'

## An archive

`transfer archive` from the repository's panel over pipes, beside a plain program that makes, writes, flushes and closes the same files one
after the other (`rust/archive-bench.sh`). A batch's files are flushed by sixteen threads at the same time, which a journal takes in far
fewer turns than one after the other. What that saves of the plain program's waiting depends on the disk and on who else writes to it.

TEXT
  bash archive-bench.sh
} >"$page.new"
mv "$page.new" "$page"
