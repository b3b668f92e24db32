#!/usr/bin/env bash
# Checks a crate and its tests from nothing by one job, and prints the seconds that went to each function and to each kind of
# module: `Lts` is a function's control flow, `Tie` its loans, `Proof` and `Answers` its clauses.
#   bench/check.sh CRATE [LINES]           LINES (25) functions are printed
# Works on a copy of the repository, over what earlier checks kept of the crates below. A check writes a file for each module,
# one after the other, so that the times of these files tell how long each took: on a busy machine they tell little. Needs rt.
set -eu
crate=$1; lines=${2:-25}; top=$(dirname "$(dirname "$(realpath "$0")")"); work=$(mktemp -d); trap 'rm -rf "$work"' EXIT
cp -a "$top/crates" "$top/crates.txt" "$top/HANDLES" "$work" && cd "$work/crates/$crate"
for below in $(sed -n "s/^$crate[^:]*: //p" ../../crates.txt); do [ ! -d "../$below" ] || (cd "../$below" && rt check > /dev/null); done
rm -rf out; kind=check; ! grep -rq '#\[test\]' src || kind=test
rt "$kind" --jobs 1 > log 2>&1 || { cat log; exit 1; }
find out/incremental -maxdepth 2 -name '*.oantt' -printf '%T@ %f\n' | sort -n | awk -v lines="$lines" '
  NR == 1 { first = $1 }
  NR > 1 {
    name = $2; sub(/\.oantt$/, "", name); took = $1 - last
    module = name; sub(/^Rattle-[a-z0-9_]+-[a-z]+\./, "", module)
    part = module; sub(/.*\./, "", part); sub(/-.*/, "", part); sub(/\.[^.]*$/, "", module)
    function_time[module] += took; part_time[part] += took
  }
  { last = $1 }
  END {
    printf "%8.1f all\n", last - first
    print_first("sort -rn | head -n " lines, function_time); print "by kind:"; print_first("sort -rn | head -n 6", part_time)
  }
  function print_first(through, times,   key) { for (key in times) printf "%8.1f %s\n", times[key], key | through; close(through) }'
