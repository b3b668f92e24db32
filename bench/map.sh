#!/usr/bin/env bash
# Measures the radix map and the chunked map beside std's BTreeMap over the same million prefixes, sorted and in random
# order: nanoseconds an operation (the best of N runs, which take turns), the ratios to BTreeMap's, and the bytes that an
# entry adds to the peak of memory. A walk lists the whole map in order, as `entries` does. All must find the same. The
# program is made in a repository of its own under the folder for temporary files, over copies of this one's crates.
#   bench/map.sh [ROUNDS]          Needs rt, rustc and GNU time.
set -eu
rounds=${1:-5}
here=$(dirname "$(realpath "$0")"); out=$(dirname "$(mktemp -u)")/bgp_replay_bench/map; program=$out/crates/map_bench
mkdir -p "$program/src"
cp "$here/../HANDLES" "$out/"
{ grep -E '^(bgp_prefix|prefix_maps|chunked_map):' "$here/../crates.txt"; echo 'map_bench: bgp_prefix prefix_maps chunked_map anyhow'; } > "$out/crates.txt"
rm -rf "$out"/crates/{bgp_prefix,prefix_maps,chunked_map}; cp -a "$here"/../crates/{bgp_prefix,prefix_maps,chunked_map} "$out/crates/"
cp "$here/map_bench.rattle" "$program/src/main.rt"
(cd "$program" && rt run -- keys > "$out/build.log" 2>&1) || { cat "$out/build.log"; exit 1; }
rustc --edition 2021 -O -o "$out/map_baseline" "$here/map_baseline.rs"

ours=$program/out/map_bench; baseline=$out/map_baseline; runs=$(mktemp -d); trap 'rm -rf "$runs"' EXIT
peak() { command time -f %M "$@" 2>&1 > /dev/null | tail -1; }
run() { # MAP WORDS..
  case $1 in BTreeMap) "$baseline" "${@:2}";; *) "$ours" "$@";; esac
}
export -f run; export ours baseline
for order in sorted random; do
  for i in $(seq "$rounds"); do for map in radix chunked BTreeMap; do run "$map" "$order" all >> "$runs/$map.$order"; done; done
  for map in radix chunked BTreeMap; do
    echo "bytes $(( ($(peak bash -c 'run "$@"' . "$map" "$order" fill) - $(peak bash -c 'run "$@"' . "$map" "$order" keys)) * 1024 ))" >> "$runs/$map.$order"
  done
done
printf '%-8s %-8s %10s %10s %10s %8s %10s\n' '' '' radix chunked BTreeMap 'radix to' 'chunked to'
for order in sorted random; do for pass in insert get longest walk remove bytes; do
  for map in radix chunked BTreeMap; do
    grep "^$pass " "$runs/$map.$order" | sort -k2n | head -1 | sed "s/^/$map /"
  done | awk -v order="$order" '{ took[$1] = $3; found[$1] = $4; pass = $2 }
    END { printf "%-8s %-8s %10.1f %10.1f %10.1f %8.2f %10.2f%s\n", order, pass, took["radix"] / 1e6, took["chunked"] / 1e6, took["BTreeMap"] / 1e6,
          took["radix"] / took["BTreeMap"], took["chunked"] / took["BTreeMap"],
          found["radix"] == found["BTreeMap"] && found["chunked"] == found["BTreeMap"] ? "" : "  DIFFERS" }'
done; done
