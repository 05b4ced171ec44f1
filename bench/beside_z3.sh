#!/usr/bin/env bash
# For diff.sh and rows.sh: how long a word of pec_bench takes for seeded systems, beside z3 on the same systems.
# z3 is left out where it is missing. Process start, as taken by an empty system, is taken off on both sides.

program=${PEC_BENCH:-crates/pec_bench/out/pec_bench}
limit=${LIMIT:-300}
folder=$(mktemp -d)
trap 'rm -r "$folder"' EXIT

# seconds FILE CMD..: the wall time of CMD on FILE, its output in $folder/out
seconds() {
    local file=$1 from to
    shift
    from=$(date +%s.%N)
    "$@" < "$file" > "$folder/out" || true
    to=$(date +%s.%N)
    awk -v a="$from" -v b="$to" 'BEGIN { printf "%.4f", b - a }'
}

# best FILE CMD..: the least of three such times
best() {
    local least=1000000 now
    for _ in 1 2 3; do
        now=$(seconds "$@")
        least=$(awk -v a="$least" -v b="$now" 'BEGIN { print a < b ? a : b }')
    done
    echo "$least"
}

# compare WORD LOGIC NAME SEED SYSTEMS VARIABLES ROWS RATIO: systems of bench/WORD_systems.awk. The word answers
# `points P other Q`, and on what passes a limit neither, where z3 says `sat` and `unsat`. Fails where the answers
# differ or pec is not RATIO times faster.
compare() {
    local word=$1 logic=$2 name=$3 given=(-v seed="$4" -v systems="$5" -v variables="$6" -v rows="$7") want=$8
    local start ours answers theirs start3 said
    printf 'system 0\nend\n' > "$folder/empty.txt"
    printf '(reset)\n(set-logic %s)\n(check-sat)\n' "$logic" > "$folder/empty.smt2"
    start=$(best "$folder/empty.txt" "$program" "$word")
    awk "${given[@]}" -f "bench/${word}_systems.awk" > "$folder/$name.txt"
    ours=$(best "$folder/$name.txt" "$program" "$word")
    answers=$(awk '{ print $2, $4 }' "$folder/out")
    echo "$name: $5 systems of $6 variables with $7 rows: pec $ours s, start $start s, $(cat "$folder/out")"
    if ! command -v z3 > /dev/null; then
        echo "$name: z3 is missing"
        return
    fi
    awk "${given[@]}" -v smt=1 -f "bench/${word}_systems.awk" > "$folder/$name.smt2"
    start3=$(best "$folder/empty.smt2" z3 -in -smt2)
    theirs=$(seconds "$folder/$name.smt2" timeout "$limit" z3 -in -smt2)
    said="$(grep -c '^sat' "$folder/out" || true) $(grep -c '^unsat' "$folder/out" || true)"
    awk -v name="$name" -v a="$ours" -v s="$start" -v b="$theirs" -v t="$start3" -v want="$want" \
      -v said="$said" -v answers="$answers" \
        -v limit="$limit" 'BEGIN {
            ended = b < limit
            ratio = (b - t) / (a - s > 0.0001 ? a - s : 0.0001)
            printf "%s: z3 %s s%s, start %s s, sat and unsat %s; pec is %s%.0f times faster, %s wanted\n", \
                name, b, ended ? "" : " (stopped)", t, said, ended ? "" : "more than ", ratio, want
            split(said, z); split(answers, p)
            exit !(ratio >= want && (z[1] >= p[1] && z[2] >= p[2] || !ended))
        }'
}
