#!/usr/bin/env bash
# Packed dumps have the reports of the plain ones, whatever packed them, and damage is told.
#   tests/packed.sh PROGRAM
# The dumps of examples/ and a drawn one, packed by gzip, pigz, bzip2, lbzip2, pbzip2 and Python's modules, as far as these are
# installed (what is missing is named), are read as files, by a pipe and from standard input, in one run with plain ones. Each front of
# a packed file, and the file with each of its bits turned: the reports of the plain one, or a status that isn't 0, and no line that a
# front of the plain dump doesn't have where the data only ends early. Of these fronts and bits every third and every fifth is tried, and
# all of them where the variable ALL is set. Needs cc. The last line is `N passed, M failed`.
set -u
program=$(realpath "$1"); here=$(dirname "$(realpath "$0")"); work=$(mktemp -d); trap 'rm -rf "$work"' EXIT
export LC_ALL=C
cd "$work" || exit 2
cp "$here/../examples/sample.mrt" sample.mrt; cp "$here/../examples/updates.mrt" updates.mrt
cc -O2 -o gen_mrt "$here/../bench/gen_mrt.c" -lm && ./gen_mrt rib 2000 20 1 > drawn.mrt || exit 2
passed=0; failed=0
right() { passed=$((passed + 1)); }
wrong() { failed=$((failed + 1)); echo "wrong: $*"; }
has() { command -v "$1" > none || { echo "not tried, since it isn't installed: $1"; return 1; }; }
same() { # NAME WANTED WORDS..: the same bytes, status and lines on standard error
  local name=$1 wanted=$2; shift 2
  "$program" "$@" > out 2> said < "${INPUT:-/dev/null}"; local status=$?
  if cmp -s out "$wanted" && [ "$status" = "$(cat "$wanted.status")" ] && cmp -s said "$wanted.said"; then right; else wrong "$name: status $status, $(wc -c < out) bytes, $(head -c 200 said)"; fi
}
wants() { # NAME WORDS..: keeps what a run on plain dumps gives
  local name=$1; shift
  "$program" "$@" > "$name" 2> "$name.said"; echo $? > "$name.status"
}
for dump in sample updates drawn; do
  for report in tables churn faults peers; do wants "$dump-$report" $report $dump.mrt; done
done
wants both tables sample.mrt updates.mrt
pack() { # NAME COMMAND..: packs each dump, and compares its reports
  local name=$1; shift
  for dump in sample updates drawn; do
    "$@" < $dump.mrt > "$dump.$name" || { wrong "$name of $dump"; continue; }
    for report in tables churn faults peers; do same "$report of $dump by $name" "$dump-$report" $report "$dump.$name"; done
    same "tables of $dump by $name from a pipe" "$dump-tables" tables <(cat "$dump.$name")
    INPUT=$dump.$name same "tables of $dump by $name from standard input" "$dump-tables" tables -
    for workers in 1 2 4; do same "tables of $dump by $name, $workers workers" "$dump-tables" tables --workers $workers "$dump.$name"; done
  done
  same "tables of both by $name" both tables "sample.$name" "updates.$name"
  same "tables of a plain one and $name" both tables sample.mrt "updates.$name"
}
halves() { head -c 1000 > front; cat > back; "$@" < front; "$@" < back; } # two streams or members
if has gzip; then for level in 1 6 9; do pack "$level.gz" gzip -"$level" -c; done; pack two.gz halves gzip -c; fi
has pigz && pack pigz.gz pigz -c && pack small.gz pigz -b 128 -c
if has bzip2; then for level in 1 9; do pack "$level.bz2" bzip2 -"$level" -c; done; pack two.bz2 halves bzip2 -c; fi
has lbzip2 && pack lbzip2.bz2 lbzip2 -c
has pbzip2 && pack pbzip2.bz2 pbzip2 -c
has python3 && pack python.gz python3 -c 'import sys, zlib
packer = zlib.compressobj(9, zlib.DEFLATED, 31, 1, zlib.Z_FIXED)
sys.stdout.buffer.write(packer.compress(sys.stdin.buffer.read()) + packer.flush())'

# long runs take no memory: 100,000,000 zeros, in blocks of 46 MB
if has bzip2; then
  head -c 100000000 /dev/zero | bzip2 -9c > runs.bz2
  "$program" churn --workers 1 --summary runs.bz2 > out 2> said; peak=$(sed -n 's/^peak_kib: //p' said)
  if [ "$(sed -n 's/^bytes: //p' said)" = 100000000 ] && [ "$peak" -lt 32000 ]; then right; else wrong "long runs: peak $peak KiB, $(head -c 200 said)"; fi
fi

# what is wrong is told, and the next file is read
told() { # NAME STATUS LINE WORDS..: the status, and that this line is said
  local name=$1 status=$2 line=$3; shift 3
  "$program" "$@" > out 2> said < /dev/null; local is=$?
  if [ "$is" = "$status" ] && grep -qxF -- "$line" said; then right; else wrong "$name: status $is, said $(head -c 300 said)"; fi
}
if has gzip; then
  gzip -9nc updates.mrt > updates.gz; size=$(wc -c < updates.gz)
  head -c $((size - 9)) updates.gz > short.gz
  told 'gzip data that ends early' 1 "  short.gz: gzip data, offset $((size - 9)): the data ends early" tables short.gz sample.mrt
  { head -c $((size - 8)) updates.gz; printf '\0\0\0\0'; tail -c 4 updates.gz; } > checksum.gz
  told 'a checksum that disagrees' 3 'read failed: file 1' tables checksum.gz sample.mrt
  [ -s out ] && wrong 'lines of a member that was not checked' || right
  { cat updates.gz; echo more; } > trailing.gz
  told 'bytes behind the last member' 1 "  trailing.gz: gzip data, offset $size: other data follows the last member" tables trailing.gz
  cp updates-tables wanted; cmp -s out wanted && right || wrong 'bytes behind the last member change the report'
  { cat updates.gz; head -c 10000 /dev/zero; } > padded.gz; same 'zeros behind the last member' updates-tables tables padded.gz
  "$program" tables --summary updates.gz > out 2> said
  grep -qx 'file 1 packed: gzip' said && grep -qx "file 1 packed bytes: $size" said && grep -qx "file 1 bytes: $(wc -c < updates.mrt)" said && right || wrong "--summary of gzip data: $(head -c 300 said)"
  : | gzip -nc > empty.gz; for i in {1..2000}; do cat empty.gz; done > many.gz; cat updates.gz >> many.gz; same 'two thousand empty members' updates-tables tables many.gz
  head -c 300000001 /dev/zero | gzip -9c > bomb.gz; ( ulimit -v 200000; exec "$program" faults --workers 1 bomb.gz > out 2> said )
  [ $? = 1 ] && [ "$(< out)" = '1|300000000|-|1|ShortHeader' ] && right || wrong "a bomb of gzip: $(head -c 200 said)"
fi
if has bzip2; then
  bzip2 -9c updates.mrt > updates.bz2; size=$(wc -c < updates.bz2)
  head -c $((size - 1)) updates.bz2 > short.bz2
  "$program" tables short.bz2 sample.mrt > out 2> said; [ $? = 1 ] && grep -q '^  short.bz2: bzip2 data, offset [0-9]*: the data ends early; what is cut off begins there$' said && right || wrong "bzip2 data that ends early: $(head -c 300 said)"
  { head -c 12 updates.bz2; printf '\0'; tail -c +14 updates.bz2; } > checksum.bz2
  "$program" tables checksum.bz2 sample.mrt > out 2> said; [ $? = 1 ] && grep -q "^  checksum.bz2: bzip2 data, offset 4: a block's checksum disagrees; the block begins there$" said && cmp -s out sample-tables && right || wrong "a block whose checksum disagrees: $(head -c 300 said)"
  { cat updates.bz2; echo more; } > trailing.bz2
  told 'bytes behind the last stream' 1 "  trailing.bz2: bzip2 data, offset $size: other data follows the last stream" tables trailing.bz2
  : | bzip2 -c > empty.bz2; for i in {1..2000}; do cat empty.bz2; done > many.bz2; cat updates.bz2 >> many.bz2; same 'two thousand empty streams' updates-tables tables many.bz2
  head -c 300000001 /dev/zero | bzip2 -9c > bomb.bz2; ( ulimit -v 400000; exec "$program" faults --workers 1 bomb.bz2 > out 2> said )
  [ $? = 1 ] && [ "$(< out)" = '1|300000000|-|1|ShortHeader' ] && right || wrong "a bomb of bzip2: $(head -c 200 said)"
fi

# each block and each stream's end is named by the byte that its first bit is in, wherever it is damaged or cut
cat > places.py <<'END'
import bz2, subprocess, sys
program, plain = sys.argv[1:]
dump = open(plain, "rb").read()
data = bz2.compress(dump, 1) + bz2.compress(dump[:250000], 1)
bits = bin(int.from_bytes(data, "big"))[2:].zfill(8 * len(data))
def places(mark): # the bytes that these 48 bits begin in
    pattern, found, at = bin(mark)[2:].zfill(48), [], -1
    while (at := bits.find(pattern, at + 1)) >= 0: found.append(at // 8)
    return found
blocks, ends = places(0x314159265359), places(0x177245385090)
cases = []
for at in blocks: # its checksum, and its codes
    behind = min(place for place in blocks + ends if place > at)
    cases += [(at, byte, "; the block begins there") for byte in (at + 8, (at + behind) // 2)]
cases += [(at, at + 8, ": a stream's checksum disagrees; the stream's end begins there") for at in ends]
bad = tried = 0
def judge(name, content, at, words):
    global bad, tried
    for workers in ("1", "4"):
        with open("places.bz2", "wb") as file: file.write(content)
        done = subprocess.run([program, "faults", "--workers", workers, "places.bz2"], capture_output=True, text=True, check=False)
        said = [line for line in done.stderr.split("\n") if line.startswith(f"  places.bz2: bzip2 data, offset {at}: ") and line.endswith(words)]
        tried += 1
        if done.returncode != 1 or len(said) != 1:
            bad += 1
            print(f"wrong: {name} by {workers} workers, not {at}{words}: {done.stderr[:300]}", file=sys.stderr)
for at, byte, words in cases:
    judge(f"bzip2 byte {byte}", data[:byte] + bytes([data[byte] ^ 16]) + data[byte + 1:], at, words)
for at in blocks + ends:
    judge(f"bzip2 cut in {at}", data[:at + 8], at, ": the data ends early; what is cut off begins there")
if len(blocks) < 6 or len(ends) != 2: bad += 1
print(tried - bad, bad)
END
if has python3; then
  read -r good bad <<< "$(python3 places.py "$program" drawn.mrt)"; passed=$((passed + good)); failed=$((failed + bad))
fi

# by several threads all is as by one: many files of a run, some of them damaged, and long runs of one byte in little memory
mixed=()
for i in {1..12}; do
  cp updates.mrt "$i.plain"; mixed+=("$i.plain")
  if has gzip; then gzip -9nc updates.mrt > "$i.whole.gz"; gzip -nc drawn.mrt | head -c $((i * 20000)) > "$i.cut.gz"; mixed+=("$i.whole.gz" "$i.cut.gz"); fi
  if has bzip2; then
    bzip2 -1c drawn.mrt > "$i.whole.bz2"; { head -c $((i * 20000)) "$i.whole.bz2"; printf '\377'; tail -c +$((i * 20000 + 2)) "$i.whole.bz2"; } > "$i.bad.bz2"
    { printf '\0\0\0\1\0\15\0\1\377\377\377\377'; cat drawn.mrt; } | bzip2 -1c > "$i.left.bz2"; mixed+=("$i.whole.bz2" "$i.bad.bz2" "$i.left.bz2")
  fi
done
summed() { grep -vE '^(workers|seconds|peak_kib|rounds|file [0-9]+ packed bytes): ' said; }
for report in churn faults 'history --prefix 10.0.0.0/8+'; do
  "$program" $report --summary --workers 1 "${mixed[@]}" > one.out 2> said; one=$?; summed > one.said
  for workers in 2 4 7; do
    "$program" $report --summary --workers $workers "${mixed[@]}" > out 2> said; several=$?
    if [ $several = $one ] && cmp -s out one.out && cmp -s <(summed) one.said; then right; else wrong "$report of many files by $workers workers: status $several, $(diff <(summed) one.said | head -n 3)"; fi
  done
done
for form in gz bz2; do
  [ -f bomb.$form ] || continue
  "$program" faults --workers 4 --summary bomb.$form bomb.$form bomb.$form > out 2> said; peak=$(sed -n 's/^peak_kib: //p' said)
  if [ "$(cut -d '|' -f 2 out | sort -u)" = 300000000 ] && [ "$peak" -lt 250000 ]; then right; else wrong "three bombs of $form by 4 workers: $peak KiB, $(head -c 200 out)"; fi
done

# each front and each bit of a small file: nothing but the plain one's lines with status 0, and by four threads the same as by one
cat > damage.py <<'END'
import subprocess, sys
program, packed, plain, name, front, bit = sys.argv[1:]
data, wanted = open(packed, "rb").read(), open(plain, "rb").read()
def run(workers):
    done = subprocess.run([program, "tables", "--workers", workers, name], capture_output=True, check=False)
    return done.returncode, done.stdout, done.stderr
bad = tried = 0
cases = [data[:n] for n in range(1, len(data), int(front))]
cases += [data[:i // 8] + bytes([data[i // 8] ^ 1 << i % 8]) + data[i // 8 + 1:] for i in range(0, 8 * len(data), int(bit))]
for case in cases:
    with open(name, "wb") as file: file.write(case)
    status, text, said = run("1")
    tried += 1
    if status not in (0, 1, 3) or (status == 0 and text != wanted) or (status == 3 and text) or run("4") != (status, text, said):
        bad += 1
print(tried - bad, bad)
END
if has python3; then
  if [ -n "${ALL:-}" ]; then steps='1 1'; else steps='3 5'; fi
  cp sample.mrt small.mrt; cp sample-tables small-tables
  for format in gzip bzip2; do
    has $format || continue
    $format -9c small.mrt > small.packed; read -r good bad <<< "$(python3 damage.py "$program" small.packed small-tables damaged.$format $steps)"
    passed=$((passed + good)); failed=$((failed + bad)); [ "$bad" = 0 ] || echo "wrong: $bad damaged files of $format"
  done
fi
echo "$passed passed, $failed failed"
[ "$failed" = 0 ] && [ "$passed" -gt 0 ]
