#!/usr/bin/env bash
# Runs the gate, or with words `rt ci` on these crates, and prints for each crate the seconds of processor time that the
# prover took: `bench/gate_times.sh [--anew] [NAME..]`. A line is a crate, what was proved (itself, its tests, or its
# edits with the check that they stand on), the seconds, and of how many processes. It looks at the processes once a
# second, and misses what one takes after the last look.
set -euo pipefail
folder=$(mktemp -d)
trap 'rm -rf "$folder"' EXIT
cd "$(dirname "${BASH_SOURCE[0]}")/.."
rt ci "$@" > "$folder/log" 2>&1 &
gate=$!
hertz=$(getconf CLK_TCK)

# One line a process: its number and start, what it proves, its ticks and those of its children that ended.
look() {
  local at words what fields
  for at in $(pgrep -f '/bin/rattle .*--crate-name'); do
    words=$(tr '\0' ' ' 2> /dev/null < "/proc/$at/cmdline") || continue
    read -ra fields < <(fields_of "$at") || continue
    # a part that a process of the prover gave to a child is counted with it
    case $(tr '\0' ' ' 2> /dev/null < "/proc/${fields[1]}/cmdline") in */bin/rattle\ *) continue ;; esac
    is_below "$at" "$gate" || continue
    what=${words#*--crate-name }
    what=${what%% *}
    case $words in */bin/rattle\ check\ *) what+=" edits" ;; *\ --test\ *) what+=" tests" ;; *) what+=" proof" ;; esac
    echo "$at-${fields[19]} $what $((fields[11] + fields[12] + fields[13] + fields[14]))"
  done
}

# What the system says of a process behind its name: its state, its parent and so on.
fields_of() {
  local stat
  stat=$(cat "/proc/$1/stat" 2> /dev/null) && echo "${stat##*) }"
}

# Whether a process was started by another, at whatever distance.
is_below() {
  local at=$1 fields
  while [ "$at" -gt 1 ]; do
    [ "$at" = "$2" ] && return 0
    read -ra fields < <(fields_of "$at") || return 1
    at=${fields[1]}
  done
  return 1
}

while kill -0 "$gate" 2> /dev/null; do
  look >> "$folder/looks"
  sleep 1
done
status=0
wait "$gate" || status=$?
tail -n 1 "$folder/log"
awk -v hertz="$hertz" '
  { last[$1] = $4; what[$1] = $2 " " $3 }
  END { for (p in last) { ticks[what[p]] += last[p]; count[what[p]]++ }
        for (w in ticks) printf "%-18s %-6s %7.1f s of %d\n",
          substr(w, 1, index(w, " ") - 1), substr(w, index(w, " ") + 1), ticks[w] / hertz, count[w] }
' "$folder/looks" | sort
exit "$status"
