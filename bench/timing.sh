#!/usr/bin/env bash
# For the other scripts of bench/: how long a command takes, the ratio of two times, and a folder for texts.

# It goes when the script ends.
folder=$(mktemp -d)
trap 'rm -rf "$folder"' EXIT

# seconds TIMES INPUT COMMAND..: the seconds that TIMES runs of the command take, INPUT as standard input.
seconds() {
  local times=$1 input=$2 start end
  shift 2
  start=$(date +%s%N)
  for ((i = 0; i < times; i++)); do "$@" < "$input" > /dev/null || return 1; done
  end=$(date +%s%N)
  awk -v span=$((end - start)) 'BEGIN { printf "%.4f\n", span / 1e9 }'
}

# processor_seconds ROUNDS TIMES INPUT COMMAND..: the processor time of TIMES runs, the least of so many rounds: other
# programs change it little.
processor_seconds() {
  local TIMEFORMAT='%U %S' rounds=$1 times=$2 input=$3
  shift 3
  for ((round = 0; round < rounds; round++)); do
    { time for ((i = 0; i < times; i++)); do "$@" < "$input" > /dev/null; done; } 2>&1
  done | awk '{ print $1 + $2 }' | sort -n | head -n 1
}

# ratio NAME A B MOST: prints A / B, and fails where it is MOST or more.
ratio() {
  awk -v name="$1" -v a="$2" -v b="$3" -v most="$4" \
    'BEGIN { r = a / b
      printf "%s: %.4f s against %.4f s, ratio %.2f (below %s)\n", name, a, b, r, most; exit r >= most }'
}

# theorems COUNT STEPS: a text for metamath of so many theorems, each of so many uses of the rule that an equality may
# be exchanged.
theorems() {
  awk -v count="$1" -v steps="$2" '
    BEGIN {
      print "$c |- term = L R $."
      print "$v x y $."
      print "tx $f term x $. ty $f term y $."
      print "tl $a term L $. tr $a term R $."
      print "known $a |- L = R $."
      print "${ given $e |- x = y $. flip $a |- y = x $. $}"
      for (k = 1; k <= count; k++) {
        printf "th%d $p |- L = R $=\n", k
        for (i = steps; i >= 1; i--) printf i % 2 ? "tl tr\n" : "tr tl\n"
        print "known"
        for (i = 1; i <= steps; i++) print "flip"
        print "$."
      }
    }'
}

# instructions INPUT COMMAND..: how many instructions the command runs, INPUT as standard input.
instructions() {
  local input=$1
  shift
  valgrind --tool=callgrind --callgrind-out-file=/dev/null "$@" < "$input" 2>&1 > /dev/null |
    awk '/Collected/ { print $4 }'
}

# four_times NAME ROUNDS TIMES COMMAND..: the processor time on $folder/large against that on $folder/small, a fourth of
# it. Where time is linear the ratio is 4; it fails at 5 and above. Where valgrind is installed, it says first what the
# ratio of instructions is, which no cache changes.
four_times() {
  local name=$1 rounds=$2 times=$3
  shift 3
  if command -v valgrind > /dev/null; then
    awk -v name="$name" -v a="$(instructions "$folder/large" "$@")" -v b="$(instructions "$folder/small" "$@")" \
      'BEGIN { printf "%s: ratio %.2f in instructions\n", name, a / b }'
  fi
  ratio "$name" "$(processor_seconds "$rounds" "$times" "$folder/large" "$@")" \
    "$(processor_seconds "$rounds" "$times" "$folder/small" "$@")" 5
}

# beside_clang_format NAME MOST COMMAND..: the time on $folder/large against that of `clang-format`, where it is
# installed, on $folder/large.c, as much C.
beside_clang_format() {
  local name=$1 most=$2
  shift 2
  if command -v clang-format > /dev/null; then
    ratio "$name against clang-format on as much C" "$(seconds 1 "$folder/large" "$@")" \
      "$(seconds 1 "$folder/large.c" clang-format --assume-filename=large.c)" "$most"
  else
    echo "clang-format is missing"
  fi
}

# The proved program that is timed, which `rt run` in its crate builds: `pec_bench`, unless the script names another
# one.
timed=${timed:-pec_bench}
bench=$(cd "$(dirname "${BASH_SOURCE[0]}")/.." && pwd)/crates/$timed/out/$timed
if [ ! -x "$bench" ]; then
  echo "no proved program $timed: rt run in crates/$timed makes it" >&2
  exit 1
fi
