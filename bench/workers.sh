#!/usr/bin/env bash
# Measures `churn` with several numbers of workers and sizes of rings, and `tables`, `visibility` and `origins` with one
# worker and with four, with rings of 1,024 and for four workers also of 8,192, next to a plain Rust replay, on a RIB
# dump and on updates. Prints the wall time, the processor time and the peak memory of the fastest run of each, whose
# runs alternate. Output goes to a pipe that is drained.
#   bench/workers.sh PROGRAM [PREFIXES] [PEERS] [MESSAGES]
# Defaults: 200,000 prefixes x 20 peers, and 1,500,000 messages. Needs cc, rustc and GNU time.
# ROUNDS (3), WORKERS ("1 2 3 4 8") and RINGS ("256 1024 8192 65536") can be set in the environment, and FAMILY (ipv4) to
# ipv6: dumps of IPv6 routes, by family ipv6, next to `churn` with one worker, since the Rust replay reads IPv4 routes
# alone.
set -eu
program=$(realpath "$1"); prefixes=${2:-200000}; peers=${3:-20}; messages=${4:-1500000} family=${FAMILY:-ipv4}
case $family in ipv4) asked= of=;; ipv6) asked='--family ipv6' of=-6;; *) echo "no such family: $family"; exit 2;; esac
here=$(dirname "$(realpath "$0")"); out=$here/out; mkdir -p "$out"
cc -O2 -o "$out/gen_mrt" "$here/gen_mrt.c" -lm
[ $family = ipv6 ] || rustc --edition 2021 -O -o "$out/replay_baseline" "$here/replay_baseline.rs"
rib=$out/rib$of-$prefixes-$peers.mrt; updates=$out/updates$of-$messages-$peers.mrt
[ -f "$rib" ] || "$out/gen_mrt" rib "$prefixes" "$peers" 1 $family > "$rib"
[ -f "$updates" ] || "$out/gen_mrt" updates "$messages" $((prefixes * 3 / 2)) "$peers" 1 $family > "$updates"
baseline=("$out/replay_baseline"); [ $family = ipv4 ] || baseline=("$program" churn $asked --workers 1)
times=$(mktemp -d); trap 'rm -rf "$times"' EXIT

# One run: its name, and the command. Adds wall, user and system seconds and KiB to the list of that name.
run() {
  local name=$1; shift
  command time -q -f '%e %U %S %M' -o "$times/one" "$@" | cat > /dev/null
  tail -1 "$times/one" >> "$times/$name"
}

for dump in "$rib" "$updates"; do
  rm -f "$times"/*; names=(baseline); cat "$dump" > /dev/null
  for _ in $(seq "${ROUNDS:-3}"); do
    names=(baseline); run baseline "${baseline[@]}" "$dump"
    for report in churn tables visibility origins; do for workers in ${WORKERS:-1 2 3 4 8}; do for ring in ${RINGS:-256 1024 8192 65536}; do
      case $report,$ring,$workers in churn,* | *,1024,1 | *,1024,4 | *,8192,4) ;; *) continue ;; esac
      names+=("$report,$workers,$ring")
      run "$report,$workers,$ring" "$program" $report $asked --workers "$workers" --ring "$ring" "$dump"
    done; done; done
  done
  printf '%-24s %8s %8s %8s %8s\n' "$(basename "$dump")" 'wall s' 'cpu s' 'peak MB' 'x base'
  base=$(sort -n "$times/baseline" | head -1 | cut -d' ' -f1)
  for name in "${names[@]}"; do
    sort -n "$times/$name" | head -1 |
      awk -v name="$name" -v base="$base" '{ printf "%-24s %8.2f %8.2f %8.1f %8.2f\n", name, $1, $2 + $3, $4 / 1024, $1 / base }'
  done
done
