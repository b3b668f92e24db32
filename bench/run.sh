#!/usr/bin/env bash
# Makes a large RIB dump and a large dump of UPDATEs, and measures the program on both beside
# `bgpdump -m` (where it is installed), `cat` and a plain Rust replay, in one run.
#   bench/run.sh PROGRAM [PREFIXES] [PEERS] [MESSAGES]
# Defaults: 1,000,000 prefixes x 20 peers, and 5,000,000 messages. FAMILY (ipv4) can be set to ipv6 in the environment:
# dumps of IPv6 routes, by family ipv6, without the Rust replay, which reads IPv4 routes alone. Needs cc, rustc and GNU
# time.
set -eu
program=$(realpath "$1"); prefixes=${2:-1000000}; peers=${3:-20}; messages=${4:-5000000} family=${FAMILY:-ipv4}
case $family in ipv4) asked= of=;; ipv6) asked='--family ipv6' of=-6;; *) echo "no such family: $family"; exit 2;; esac
here=$(dirname "$(realpath "$0")"); out=$here/out; mkdir -p "$out"
cc -O2 -o "$out/gen_mrt" "$here/gen_mrt.c" -lm
[ $family = ipv6 ] || rustc --edition 2021 -O -o "$out/replay_baseline" "$here/replay_baseline.rs"
rib=$out/rib$of-$prefixes-$peers.mrt; updates=$out/updates$of-$messages-$peers.mrt
[ -f "$rib" ] || "$out/gen_mrt" rib "$prefixes" "$peers" 1 $family > "$rib"
[ -f "$updates" ] || "$out/gen_mrt" updates "$messages" $((prefixes * 3 / 10)) "$peers" 1 $family > "$updates"
baseline=(-b "$out/replay_baseline"); [ $family = ipv4 ] || baseline=()
for dump in "$rib" "$updates"; do
  "$here/compare.sh" -n "${ROUNDS:-2}" "${baseline[@]}" "$dump" "tables=$program tables $asked {}" \
    "churn=$program churn $asked {}"
done
