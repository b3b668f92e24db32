#!/usr/bin/env bash
# Measures the Python package: each report as a frame beside the program's own text through a pipe (wall and processor
# seconds, the least of ROUNDS (3) runs that alternate), `churn` of each packing, how much processor time Dask adds to
# four collectors, and the memory of `tables` in pieces at three sizes.
#   bench/python.sh PROGRAM [PREFIXES] [PEERS] [MESSAGES]
# Defaults: 100,000 prefixes x 20 peers, and 750,000 messages. Needs cc, gzip, bzip2, xz, and Debian's python3-pandas and
# python3-distributed; zstd where it is installed. PYTHON is the interpreter that has them (/usr/bin/python3). PARTS can
# choose some: "frames packed dask memory".
set -eu
program=$(realpath "$1"); prefixes=${2:-100000}; peers=${3:-20}; messages=${4:-750000}
here=$(dirname "$(realpath "$0")"); out=$here/out; mkdir -p "$out"
cc -O2 -o "$out/gen_mrt" "$here/gen_mrt.c" -lm
rib() { local name=$out/rib-$1-$peers.mrt; [ -f "$name" ] || "$out/gen_mrt" rib "$1" "$peers" 1 > "$name"; echo "$name"; }
rib=$(rib "$prefixes"); small=$(rib $((prefixes / 4))); large=$(rib $((prefixes * 2)))
updates=$out/updates-$messages-$peers.mrt
[ -f "$updates" ] || "$out/gen_mrt" updates "$messages" $((prefixes * 3 / 2)) "$peers" 1 > "$updates"
pack() { [ -f "$updates.$1" ] || "${@:2}" < "$updates" > "$updates.$1"; }
pack gz gzip -c; pack bz2 bzip2 -c; pack xz xz -1 -c
if command -v zstd > /dev/null; then pack zst zstd -qc; fi
work=$(mktemp -d); trap 'rm -rf "$work"' EXIT
export DASK_DISTRIBUTED__WORKER__PROFILE__INTERVAL=1s  # the profiler of workers wakes up each 10 ms by default
export BGP_REPLAY=$program PYTHONPATH=$here/../python PYTHONDONTWRITEBYTECODE=1 DASK_TEMPORARY_DIRECTORY=$work DASK_CONFIG=$work
"${PYTHON:-/usr/bin/python3}" "$here/python_bench.py" "$rib" "$updates" "$small" "$large"
