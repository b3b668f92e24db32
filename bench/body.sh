#!/usr/bin/env bash
# Measures framing and bodies together: `Units::next` over a generated RIB dump and a dump of updates, on one thread, beside `cat`;
# and over RIB records of 1,024 and of 65,535 entries that hold as many entries altogether.
#   bench/body.sh [PREFIXES] [PEERS] [MESSAGES]
# Defaults: 1,000,000 prefixes x 20 peers, and 5,000,000 messages. Needs the kit, cc and GNU time. The program is
# built in a repository of copies under the folder for temporary files; each crate below it is proved first.
set -eu
prefixes=${1:-1000000}; peers=${2:-20}; messages=${3:-5000000}
here=$(dirname "$(realpath "$0")"); out=$here/out; scratch=$(dirname "$(mktemp -u)")/bgp_replay_bench/body; mkdir -p "$out" "$scratch/crates/body_bench/src"
for crate in bgp_prefix mrt_frame bgp_update peer_units mrt_body; do # with what earlier checks kept, and no file that is gone
  mkdir -p "$scratch/crates/$crate/out"; rm -rf "$scratch/crates/$crate"/{src,specs,proofs}
  cp -a "$here/../crates/$crate"/{src,specs,proofs} "$scratch/crates/$crate/"; cp -au "$here/../crates/$crate/out/." "$scratch/crates/$crate/out/" 2> "$out/body.log" || true
done
{ grep -E '^(bgp_prefix|mrt_frame|bgp_update|peer_units|mrt_body):' "$here/../crates.txt"; echo 'body_bench: mrt_frame peer_units mrt_body'; } > "$scratch/crates.txt"
cp "$here/body_bench.rattle" "$scratch/crates/body_bench/src/main.rt"
(cd "$scratch/crates/body_bench" && rt run > "$out/body.log" 2>&1) || { tail -20 "$out/body.log"; exit 1; }
cc -O2 -o "$out/gen_mrt" "$here/gen_mrt.c" -lm; cc -O2 -o "$out/body_records" "$here/body_records.c"
rib=$out/rib-$prefixes-$peers.mrt; updates=$out/updates-$messages-$peers.mrt
[ -f "$rib" ] || "$out/gen_mrt" rib "$prefixes" "$peers" 1 > "$rib"
[ -f "$updates" ] || "$out/gen_mrt" updates "$messages" $((prefixes * 3 / 10)) "$peers" 1 > "$updates"
few=$out/records-1024.mrt; many=$out/records-65535.mrt
[ -f "$few" ] || "$out/body_records" 12800 1024 > "$few"
[ -f "$many" ] || "$out/body_records" 200 65535 > "$many"
printf '%-28s %9s %9s %9s %9s\n' command 'wall s' 'cpu s' 'MB/cpu s' 'peak MB'
measure() { # NAME FILE COMMAND..: the best of ROUNDS runs by processor time
  local name=$1 file=$2; shift 2
  for _ in $(seq "${ROUNDS:-3}"); do command time -q -o "$out/time" -f '%e %U %S %M' "$@" > "$out/said"; cat "$out/time"; done |
    awk '{ print $2 + $3, $0 }' | sort -n | head -1 | cut -d' ' -f2- | awk -v n="$name" -v s="$(stat -Lc %s "$file")" '{ c = $2 + $3; printf "%-28s %9.2f %9.2f %9.0f %9.1f\n", n, $1, c, s / 1e6 / (c > 0 ? c : 0.01), $4 / 1024 }'
}
for file in "$rib" "$updates" "$few" "$many"; do
  cat "$file" > /dev/null
  measure "cat $(basename "$file")" "$file" sh -c 'cat "$0" | cat > /dev/null' "$file"
  measure "units $(basename "$file")" "$file" "$scratch/crates/body_bench/out/body_bench" "$file"
  sed 's/^/  /' "$out/said"
done
