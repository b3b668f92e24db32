#!/usr/bin/env bash
# Lets one thing after the other fail in runs of the program as it is built, and judges how each run ended (refusals.c; refuse.c is the library
# that stands before the C library):
#   each growth of memory (and: it and all later ones)   status 3, `no memory` and nothing written, or as with ample memory
#   each read of a dump (EIO, EINTR)                     status 3, `read failed: file N` and nothing written
#   each write of the report (EIO, ENOSPC, EINTR, EPIPE, or no byte taken)   status 3, `write failed`, a front of the report
#   each start of a thread (and: it and all later ones), reads and writes of one byte         as without it
#   tests/refused_growths.sh PROGRAM
# by 1, 2, 4 and 64 workers, with rings of 1 and of 1,024 units. Growths are counted in the order in which the threads of that run ask, which
# isn't that of another run; behind the first 100 by 64 workers each 7th is refused (of the sample each 61st), by fewer each one (of the sample each third). Refused are the program's own
# requests and those that the C library makes of its allocator for it, as for a thread's locals. The memory of a thread's stack is mapped
# by pthread_create itself: its want is the start of a thread that fails. Where a growth isn't needed, as a thread's, the answer is as with
# ample memory. A kind of failure that reached no run of a line has failed too. Dumps: UPDATEs of three peers; an index, a RIB record and an UPDATE; both
# as files of one run; the same with damage that is handled; the sample; and a large RIB of one peer, whose lines are made by several threads. Of all but the sample there is one of IPv6
# routes, too, by family ipv6. Needs cc. The last line is `N passed, M failed`, counted in runs.
set -u
program=$(realpath "$1"); here=$(dirname "$(realpath "$0")"); work=$(mktemp -d); trap 'rm -rf "$work"' EXIT
cc -O2 -shared -fPIC -o "$work/refuse.so" "$here/refuse.c" && cc -O2 -o "$work/refusals" "$here/refusals.c" || exit 2
bytes() { printf '%b' "$(printf '%s' "$*" | tr -d ' ' | sed 's/../\\x&/g')"; }

marker=FFFFFFFFFFFFFFFFFFFFFFFFFFFFFFFF
attributes=4001010040020602010000FDE8400304C0000201
update() { bytes 00000001 0010 0004 00000041 0000FDE8 0000FDE9 0000 0001 "$1" C0000202 $marker 002D 02 0000 0014 $attributes 080A; }
index() { bytes 00000003 000D 0001 0000002C C0000263 0000 0002 01 C0000201 20010DB8000000000000000000000001 FDE8 02 C0000202 C0000202 00011170; }
table() { bytes 00000003 000D 0002 00000030 00000000 080A 0002 0000 00000001 0014 $attributes 0001 00000001 0004 40010103; }
cd "$work" && ln -s "$program" program || exit 2
{ update C0000201; update C0000202; update C0000201; update C0000203; update C0000202; } > three-peers
{ index; table; update C0000201; } > table-and-update
# the same behind damage that is handled: an ORIGIN of no kind, whose keys are withdrawn, and entries of an AGGREGATOR of one byte, which is discarded
grave() { bytes 00000001 0010 0004 00000044 0000FDE8 0000FDE9 0000 0001 "$1" C0000202 $marker 0030 02 0000 0014 40010105 ${attributes:8} 080A 10AC10; }
cut_aggregator() { bytes 00000003 000D 0002 00000038 00000000 080A 0002 0000 00000001 0018 ${attributes}C0070100 0001 00000001 0008 40010100 C0070100; }
{ index; cut_aggregator; grave C0000201; update C0000201; grave C0000202; grave C0000203; } > handled
# 17,000 prefixes of one peer: as many lines as several threads make
routes() { awk -v attributes=$attributes 'BEGIN { for (i = 0; i < 17000; i++) printf "00000003000D00020000002600000000180A%04X00010000000000010014%s", i, attributes }'; }
{ index; bytes "$(routes)"; } > large
# the same of IPv6 routes: attribute 14 of an UPDATE, and of a RIB entry in its short form
path=4001010040020602010000FDE8
hop=20010DB8000000000000000000000009
update6() {
  bytes 00000001 0010 0004 00000055 0000FDE8 0000FDE9 0000 0001 "$1" C0000202 $marker 0041 02 0000 002A $path 800E1A 0002 01 10 $hop 00 20 20010DB8
}
table6() { bytes 00000003 000D 0004 00000040 00000000 20 20010DB8 0002 0000 00000001 0021 $path 800E1110 $hop 0001 00000001 0004 40010103; }
{ update6 C0000201; update6 C0000202; update6 C0000201; update6 C0000203; update6 C0000202; } > three-peers-6
{ index; table6; update6 C0000201; } > table-and-update-6
routes6() {
  awk -v attributes=${path}800E1110$hop 'BEGIN {
    for (i = 0; i < 17000; i++) printf "00000003000D0004000000360000000030" "20010DB8%04X00010000000000010021%s", i, attributes
  }'
}
{ index; bytes "$(routes6)"; } > large-6
cp "$here/../examples/sample.mrt" sample
gzip -9nc sample > sample.gz; bzip2 -9c sample > sample.bz2

tries() {
  local file kind lanes
  for lanes in '1 1' '1 1024' '2 1' '2 1024' '4 1' '4 1024' '64 1' '64 1024'; do
    set -- $lanes; step=1; [ $1 = 64 ] && step=7
    by="--quiet --workers $1 --ring $2" # that notes are missing is said where their memory is refused
    for file in three-peers table-and-update; do
      for request in tables visibility origins seen churn peers history 'match --address 10.0.0.1' faults; do echo memory $step 1 $file $request $by $file; done
      for request in 'tables --origin 65000 --path 65000 --community 1:2' seen peers 'history --same'; do echo memory $step 1 $file $request --prefix 10.0.0.0/8+ --prefix 10.0.0.0/7 --peer 65000 --peers 1/1 $by $file; done
      for request in tables 'history --same'; do echo memory $step 1 $file $request --rib replace $by $file table-and-update; done
      for request in tables 'history --same' 'tables --attributes communities'; do echo memory $step 1 $file $request --errors rfc7606 $by $file handled; done
      echo memory-on $step 1 $file tables $by $file
      for kind in read-EIO read-EINTR; do echo $kind 1 1 $file tables $by $file; echo $kind 1 1 $file churn $by -; done
      for kind in thread thread-on short-reads short-writes; do echo $kind 1 1 $file tables $by $file; done
    done
    six="--family ipv6 $by"
    for file in three-peers-6 table-and-update-6; do
      for request in tables visibility origins seen churn peers history 'match --address 2001:db8::1' faults; do echo memory $step 1 $file $request $six $file; done
      echo memory $step 1 $file tables --prefix 2001:db8::/32+ --prefix 2001:db8::1- --peer 65000 --peers 1/1 $six $file
      echo memory $step 1 $file 'history --same' --rib replace $six $file table-and-update-6
      echo memory-on $step 1 $file tables $six $file
      for kind in read-EIO read-EINTR; do echo $kind 1 1 $file tables $six $file; echo $kind 1 1 $file churn $six -; done
      for kind in thread thread-on short-reads short-writes; do echo $kind 1 1 $file tables $six $file; done
    done
    [ $1 = 64 ] && step=61 || step=3
    echo memory $step 1 sample tables $by sample
    echo memory-on $((step * 3)) 1 sample churn $by sample
    for kind in read-EIO read-EINTR; do for file in 1 2; do echo $kind 1 $file "$([ $file = 1 ] && echo three-peers || echo table-and-update)" tables $by three-peers table-and-update; done; done
    echo thread $step 1 sample tables $by sample; echo thread-on $step 1 sample tables $by sample
    echo short-reads 1 1 sample tables $by sample
  done
  for workers in 2 4; do # packed files, which other threads unpack
    by="--quiet --workers $workers --ring 1024"
    echo memory 3 1 sample.gz churn $by sample.gz sample.bz2; echo memory-on 9 1 sample.gz churn $by sample.gz sample.bz2
    for kind in read-EIO read-EINTR; do echo $kind 1 1 sample.gz churn $by sample.gz sample.bz2; echo $kind 1 2 sample.bz2 churn $by sample.gz sample.bz2; done
    for kind in thread thread-on short-reads; do echo $kind 1 1 sample.bz2 churn $by sample.gz sample.bz2; done
  done
  for kind in memory thread thread-on short-writes; do echo $kind 1 1 large tables --workers 4 --ring 1024 large; done
  echo memory-on 7 1 large tables --workers 4 --ring 1024 large
  for kind in memory thread-on short-writes; do echo $kind 1 1 large-6 tables --family ipv6 --workers 4 --ring 1024 large-6; done
  for kind in write-EIO write-none; do echo $kind 997 1 large tables --workers 4 --ring 1024 large; done
  for kind in write-EIO write-ENOSPC write-EINTR write-EPIPE write-none; do
    for request in tables visibility origins seen churn peers history 'match --address 17.150.214.7'; do echo $kind 1 1 sample $request sample; done
    echo $kind 1 1 table-and-update faults table-and-update
  done
  for request in tables visibility origins seen churn peers history 'match --address 17.150.214.7'; do echo short-writes 1 1 sample $request sample; done
}
tries > tries
xargs -P "$(nproc)" -L 1 ./refusals ./program ./refuse.so < <(shuf --random-source=sample tries 2> none || cat tries) > lines
grep -v '^tried ' lines
awk '$1 == "tried" { runs[$6] += $2; met[$6] += $3; lines[$6]++ }
     END { for (kind in runs) printf "%-13s %4d lines, %6d runs, %6d with a failure that the program met as it must\n", kind, lines[kind], runs[kind], met[kind] }' lines | sort
read -r runs failed lines <<< "$(awk '$1 == "tried" { runs += $2; failed += $4; lines++ } END { print runs + 0, failed + 0, lines + 0 }' lines)"
wanted=$(wc -l < tries)
[ "$lines" = "$wanted" ] || { echo "$((wanted - lines)) of $wanted lines weren't tried to the end"; failed=$((failed + wanted - lines)); }
echo "$((runs - failed)) passed, $failed failed"
[ "$failed" = 0 ] && [ "$runs" -gt 0 ]
