#!/usr/bin/env bash
# Measures how fast records are framed: a dump of short ones (about 100 bytes) through a counted and
# buffered reader of a file, beside `cat` of the same file. Prints the best of some rounds of each.
#   bench/frame.sh [MESSAGES] [ROUNDS]
# Defaults: 1,750,000 messages (200 MB), 10 rounds. Needs cc. The program is built in a repository of copies under
# the folder for temporary files, since it is no crate of this one; its first build proves the crates that it stands on.
set -eu
messages=${1:-1750000}; rounds=${2:-10}
here=$(dirname "$(realpath "$0")"); crates=$here/../crates; out=$here/out; copy=$(dirname "$(mktemp -u)")/bgp_replay_bench/frame; mkdir -p "$out" "$copy/crates"
[ -x "$out/gen_mrt" ] || cc -O2 -o "$out/gen_mrt" "$here/gen_mrt.c" -lm
dump=$out/frame-$messages.mrt
[ -f "$dump" ] || "$out/gen_mrt" updates "$messages" 20000 20 1 > "$dump"
for crate in bgp_prefix mrt_frame; do
  mkdir -p "$copy/crates/$crate"
  for part in src specs proofs; do rm -rf "$copy/crates/$crate/$part"; cp -a "$crates/$crate/$part" "$copy/crates/$crate/"; done
  [ -d "$copy/crates/$crate/out" ] || [ ! -d "$crates/$crate/out" ] || cp -a "$crates/$crate/out" "$copy/crates/$crate/"
done
mkdir -p "$copy/crates/frame_bench/src"
cmp -s "$here/frame_bench.rattle" "$copy/crates/frame_bench/src/main.rt" || cp "$here/frame_bench.rattle" "$copy/crates/frame_bench/src/main.rt"
printf '%s\n' 'bgp_prefix:' 'mrt_frame: bgp_prefix byteorder' 'frame_bench: mrt_frame' > "$copy/crates.txt"
(cd "$copy/crates/frame_bench" && rt run -- "$dump")
program=$copy/crates/frame_bench/out/frame_bench
size=$(stat -c %s "$dump")
best() { # NAME COMMAND..
  local name=$1 least=0 from to; shift
  for _ in $(seq "$rounds"); do
    from=${EPOCHREALTIME/./}; "$@" > /dev/null; to=${EPOCHREALTIME/./}
    if [ "$least" = 0 ] || [ $((to - from)) -lt "$least" ]; then least=$((to - from)); fi
  done
  printf '%-8s %6d MB/s\n' "$name" $((size / least))
}
cat "$dump" > /dev/null
best framing "$program" "$dump"
best cat cat "$dump"
