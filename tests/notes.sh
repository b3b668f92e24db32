#!/usr/bin/env bash
# Tries the notes on standard error, on the program as it is built: each one where its reason is, its absence where it isn't, five names at most, none
# with --quiet, the same report and status with and without. What a note says is told here by what the dump was made of.
#   tests/notes.sh PROGRAM
# Where memory for notes is refused (refuse.c), a line says that they are missing. Needs bash, coreutils and cc. The last line is `N passed, M failed`.
set -u
program=$(realpath "$1"); here=$(dirname "$(realpath "$0")"); work=$(mktemp -d); trap 'rm -rf "$work"' EXIT
cd "$work" && ln -s "$program" bgp_replay || exit 2
passed=0; failed=0
right() { passed=$((passed + 1)); }
wrong() { failed=$((failed + 1)); printf 'wrong: %s\n' "$*"; }
bytes() { printf '%b' "$(printf '%s' "$*" | tr -d ' ' | sed 's/../\\x&/g')"; }

# ---- records: RFC 6396 (4.3, 4.4) and RFC 4271 (4.3)
marker=FFFFFFFFFFFFFFFFFFFFFFFFFFFFFFFF
attributes=4001010040020602010000FDE8400304C0000201
session() { printf '0000FDE8 0000FDE9 0000 0001 %s C0000263' "$1"; }
update() { bytes "$1" 0010 0004 00000041 "$(session "$2")" $marker 002D 02 0000 0014 $attributes 080A; } # SECOND PEER, of 10.0.0.0/8
states() { bytes "$1" 0010 0005 00000018 "$(session "$2")" "$3" "$4"; } # SECOND PEER OLD NEW
index() { bytes "$1" 000D 0001 0000001E C0000263 0000 0002 00 C0000201 C0000201 FDE8 00 C0000202 C0000202 FDE8; } # SECOND: two peers
# SECOND SUBTYPE PEER PEER: a RIB record of 10.0.0.0/8 with two entries; with path identifiers 1 and 2 where the subtype is 0008
rib() {
  local first= second= size=00000040; [ "$2" = 0008 ] && first=00000001 second=00000002 size=00000048
  bytes "$1" 000D "$2" $size 00000000 080A 0002 "$3" 00000000 $first 0014 $attributes "$4" 00000000 $second 0014 $attributes
}
table_dump() { bytes "$1" 000C 0001 00000028 0000 0000 0A000000 08 01 00000000 "$2" FDE8 0012 4001010040020402 01FDE8400304C0000201; } # SECOND PEER, of 10.0.0.0/8
table_dump6() { bytes "$1" 000C 0002 0000002E 0000 0000 20010DB8000000000000000000000000 20 01 00000000 20010DB8000000000000000000000001 FDE8 0000; } # SECOND
other() { bytes "$1" "$2" "$3" 00000001 00; } # SECOND TYPE SUBTYPE
rib6() { bytes "$1" 000D "$2" 0000000B 00000000 20 20010DB8 0000; } # SECOND SUBTYPE: of 2001:db8::/32, no entry

run() { ./bgp_replay "$@" > out 2> said; status=$?; }
# The notes of a run are these lines, in this order; with --quiet there are none, and all else is the same.
notes() { # NAME STATUS NOTES WORDS..
  local name=$1 wanted=$2 lines=$3; shift 3
  run "$@"
  if [ "$(grep '^  note: ' said)" = "$lines" ]; then right; else wrong "$name: $(grep '^  note: ' said)"; fi
  if [ $status = "$wanted" ]; then right; else wrong "$name: status $status"; fi
  cp out report; grep -v '^  note: ' said > others
  run "$@" --quiet
  if cmp -s out report && cmp -s said others && [ $status = "$wanted" ]; then right; else wrong "$name with --quiet: $(cat said)"; fi
}
idle='units that changed nothing, since their peer wasn'"'"'t up'
takes='--states established takes them'
aside='no RIB record but those of TABLE_DUMP, which aren'"'"'t read'
reads='--table-dump read takes them'
unread='no unit, and records of types that aren'"'"'t read'
empty='files without a whole record'
early='files whose first record is older than that of the file named before'
dumps='RIB dumps that add up in the tables, where routes of a former one stay'
anew='--rib replace clears the tables at each'
twice='RIB records without path identifiers that name a peer twice'
silent='peers of which nothing came but state changes'
local='--state-peers local takes these for those of other peers'
unheard='chosen peers of which nothing came'
unmet='no chosen prefix is announced or withdrawn'
again='peers that sent an End-of-RIB marker again, without a state change between'
stays='what they had before stays'

# ---- none
update 00000001 C0000201 > whole
{ index 00000001; rib 00000001 0002 0000 0001; rib 00000001 0002 0001 0000; rib6 00000001 0004; } > table
for report in tables visibility origins seen churn peers history faults 'match --address 10.0.0.1' 'tables --prefix 10.0.0.0/8' 'churn --since 1'; do
  notes "$report" 0 '' $report whole table
done

# ---- units of peers that weren't up: what FRR writes of a connection that lost
{ states 00000001 C0000201 0005 0006; states 00000001 C0000201 0003 0008; update 00000002 C0000201; update 00000003 C0000201; } > lost
for report in tables churn peers history faults 'churn --since 0' 'tables --prefix 10.0.0.0/8'; do
  notes "idle: $report" 0 "  note: $idle: 2, of 65000 192.0.2.1 (2); $takes" $report lost
done
notes 'idle, not of another prefix' 0 "  note: $unmet" tables --prefix 11.0.0.0/8 lost
notes 'idle, not before a second' 0 "  note: $idle: 1, of 65000 192.0.2.1 (1); $takes" churn --since 3 lost
for peer in 1 2 3 4 5 6 7; do states 00000001 C000020$peer 0006 0001; update 00000002 C000020$peer; done > seven
named=; for peer in 1 2 3 4 5; do named+="${named:+, }65000 192.0.2.$peer (1)"; done
for workers in 1 3; do notes "idle peers by $workers" 0 "  note: $idle: 7, of $named and 2 more; $takes" tables --workers $workers seven; done
# A damaged unit is no idle one, and neither is a state change.
{ states 00000001 C0000201 0006 0001; states 00000001 C0000201 0001 0002; } > down; notes 'down' 0 '' tables down
# The address of a peer over IPv6 (RFC 6396, 4.4.2: AFI 2) is written in full, as in reports.
v6=20010DB8000000000000000000000001
session6="0000FDE8 0000FDE9 0000 0002 $v6 $v6"
{ bytes 00000001 0010 0005 00000030 $session6 0006 0001; bytes 00000002 0010 0004 00000059 $session6 $marker 002D 02 0000 0014 $attributes 080A; } > over6
notes 'idle over IPv6' 0 "  note: $idle: 1, of 65000 2001:0db8:0000:0000:0000:0000:0000:0001 (1); $takes" tables over6

# ---- state changes alone, of a peer that isn't established: OpenBGPD writes itself, and BIRD no address
{ update 00000001 C0000201; states 00000002 C0000204 0006 0001; } > own
for report in tables visibility origins seen churn peers history faults 'match --address 10.0.0.1' 'tables --state-peers recorded' 'tables --peer 65000'; do
  notes "state changes alone: $report" 0 "  note: $silent: 1, 65000 192.0.2.4; $local" $report own
done
for rule in local by-as; do notes "state changes alone, by $rule" 0 '' tables --state-peers $rule own; done
notes 'state changes alone, by a daemon' 0 '' tables --written-by openbgpd own
notes 'state changes alone, of chosen prefixes' 0 '' tables --prefix 10.0.0.0/8 own
notes 'state changes alone, not counted' 0 '' churn --since 2 own
notes 'state changes alone, of chosen routes' 0 "  note: $silent: 1, 65000 192.0.2.4; $local" history --origin 65001 own
notes 'state changes alone, not yet' 0 '' tables --until 1 own
{ update 00000001 C0000201; states 00000002 C0000204 0005 0001; } > never; notes 'never established' 0 "  note: $silent: 1, 65000 192.0.2.4; $local" tables never
{ cat own; states 00000003 C0000204 0005 0006; } > anew; notes 'established again' 0 '' tables anew
{ cat own; update 00000003 C0000204; } > sent; notes 'behind the end' 0 "  note: $idle: 1, of 65000 192.0.2.4 (1); $takes" tables sent
{ update 00000001 C0000204; cat own; } > began; notes 'before the end' 0 '' tables began
{ update 00000001 C0000201; states 00000002 00000000 0006 0001; } > gone
notes 'state changes alone, without an address' 0 "  note: $silent: 1, 65000 0.0.0.0; --state-peers by-as takes these for those of other peers" tables gone
notes 'state changes alone, without an address, by a daemon' 0 '' tables --written-by bird gone
{ update 00000001 C0000201; for peer in 2 3 4 5 6 7 8; do states 00000002 C000020$peer 0006 0001; done; } > ends
for workers in 1 3; do
  notes "state changes alone, of seven, by $workers" 0 "  note: $silent: 7, 65000 192.0.2.2, 65000 192.0.2.3, 65000 192.0.2.4, 65000 192.0.2.5, 65000 192.0.2.6 and 2 more; $local" tables --workers $workers ends
done

# ---- chosen peers of which nothing came, and chosen prefixes
for report in tables churn peers history faults; do
  notes "no such peer: $report" 0 "  note: $unheard: 65009, 65000,192.0.2.9, 65000,2001:0db8:0000:0000:0000:0000:0000:0001" $report --peer 65009 --peer 65000,192.0.2.1 --peer 65000,192.0.2.9 --peer 65000,2001:db8::1 whole
done
notes 'chosen peers' 0 '' tables --peer 65000 --peer 65000,192.0.2.1 whole
notes 'no such peer yet' 0 "  note: $unheard: 65000" tables --peer 65000 --until 0 whole
notes 'seven such peers' 0 "  note: $unheard: 1, 2, 3, 4, 5 and 2 more" tables --peer 1 --peer 2 --peer 3 --peer 4 --peer 5 --peer 6 --peer 7 whole
notes 'of a share' 0 '' tables --peer 65009 --peers 1/2 whole
for report in tables visibility origins seen churn peers history faults 'match --address 10.0.0.1' 'tables --origin 65001' 'history --origin 65001'; do
  notes "no such prefix: $report" 0 "  note: $unmet" $report --prefix 11.0.0.0/8 --prefix 12.0.0.0/7+ whole
done
notes 'one of two prefixes' 0 '' tables --prefix 11.0.0.0/8 --prefix 10.0.0.0/7+ whole
for report in tables churn history; do notes "of another origin: $report" 0 '' $report --prefix 10.0.0.0/8 --origin 65001 whole; done
notes 'a prefix from a second on' 0 '' churn --prefix 11.0.0.0/8 --since 2 whole
bytes 00000001 0010 0004 0000002D "$(session C0000201)" $marker 0019 02 0002 080A 0000 > withdrawn
for report in tables churn history; do notes "a withdrawn prefix: $report" 0 '' $report --prefix 10.0.0.0/8 withdrawn; done
notes 'a prefix of a peer that is not up' 0 "  note: $idle: 2, of 65000 192.0.2.1 (2); $takes" tables --prefix 10.0.0.0/8 lost
notes 'neither peer nor prefix' 0 "  note: $unheard: 65009
  note: $unmet" tables --peer 65009 --prefix 11.0.0.0/8 whole

# ---- End-of-RIB markers (RFC 4724, 2): again with no state change between
end() { bytes "$1" 0010 0004 0000002B "$(session "$2")" $marker 0017 02 0000 0000; } # SECOND PEER, of IPv4
end6() { bytes "$1" 0010 0004 00000031 "$(session "$2")" $marker 001D 02 0000 0006 800F03000201; } # SECOND PEER, of IPv6
long6() { bytes "$1" 0010 0004 00000032 "$(session "$2")" $marker 001E 02 0000 0007 900F0003000201; } # with a length of two bytes
{ update 00000001 C0000201; end 00000002 C0000201; } > once; end 00000003 C0000201 > twice
notes 'one End-of-RIB marker' 0 '' tables once
for report in tables visibility origins seen churn peers history faults 'match --address 10.0.0.1' 'tables --prefix 10.0.0.0/8' 'tables --workers 3' 'churn --since 2'; do
  notes "two End-of-RIB markers: $report" 0 "  note: $again: 1, 65000 192.0.2.1; $stays" $report once twice
done
notes 'four End-of-RIB markers' 0 "  note: $again: 1, 65000 192.0.2.1; $stays" tables once twice twice twice
{ states 00000002 C0000201 0006 0001; states 00000002 C0000201 0005 0006; } > restarted; notes 'a session between' 0 '' tables once restarted twice
states 00000002 C0000202 0005 0006 > other; notes 'a state change of another peer' 0 "  note: $again: 1, 65000 192.0.2.1; $stays" tables once other twice
states 00000002 00000000 0005 0006 > unnamed; notes 'a state change of the peer by another rule' 0 '' tables --state-peers by-as once unnamed twice
end 00000003 C0000202 > beside; notes 'one of each peer' 0 '' tables once beside
notes 'of a peer that is not chosen' 0 '' tables --peer 65000,192.0.2.1 once beside beside
notes 'past the last second' 0 '' tables --until 2 once twice
for peer in 1 2 3 4 5 6 7; do end 00000002 C000020$peer; end 00000002 C000020$peer; done > restarts
notes 'seven peers with two' 0 "  note: $again: 7, 65000 192.0.2.1, 65000 192.0.2.2, 65000 192.0.2.3, 65000 192.0.2.4, 65000 192.0.2.5 and 2 more; $stays" tables restarts
{ end6 00000002 C0000201; long6 00000002 C0000201; } > ends6
notes 'two of IPv6' 0 "  note: $again: 1, 65000 192.0.2.1; $stays" tables --family ipv6 ends6
notes 'two of the other family' 0 '' tables ends6
notes 'two of the other family, for IPv6' 0 '' tables --family ipv6 once twice
bytes 00000001 0010 0004 00000032 "$(session C0000201)" $marker 001E 02 0000 0007 800F0400020100 > default6
notes 'withdrawals of a default route of IPv6' 0 '' tables --family ipv6 default6 default6
bytes 00000001 0010 0004 00000031 "$(session C0000201)" $marker 001D 02 0000 0006 800F03000202 > multicast
notes 'two of multicast routes' 0 '' tables --family ipv6 multicast multicast
bytes 00000001 0010 0004 00000027 "$(session C0000201)" $marker 0013 04 > alive; notes 'KEEPALIVE messages' 0 '' tables alive alive
bytes 00000001 0010 0004 0000002C "$(session C0000201)" $marker 0018 02 0001 00 0000 > default; notes 'withdrawals of a default route' 0 '' tables default default

# ---- records of the other family alone
{ index 00000001; rib6 00000001 0004; rib6 00000001 000A; } > six
notes 'IPv6 alone' 0 '  note: no RIB record of IPv4 routes, and 2 of IPv6 routes, which aren'"'"'t read: six' tables six
notes 'IPv6 beside messages' 0 '  note: no RIB record of IPv4 routes, and 4 of IPv6 routes, which aren'"'"'t read: six, six' tables six whole six
notes 'IPv6 in seven files' 0 '  note: no RIB record of IPv4 routes, and 14 of IPv6 routes, which aren'"'"'t read: six, six, six, six, six and 2 more' tables six six six six six six six
notes 'both families' 0 '' tables table six --until 0

# ---- TABLE_DUMP records that are aside (RFC 6396, 4.2), and no other RIB record
{ table_dump 00000001 C0000201; table_dump 00000001 C0000202; } > old; table_dump6 00000001 > old6
for report in tables visibility origins seen churn peers history faults 'match --address 10.0.0.1' 'tables --table-dump aside'; do
  notes "TABLE_DUMP: $report" 0 "  note: $aside: 2, in old; $reads" $report old
done
for report in tables churn peers history; do notes "TABLE_DUMP that is read: $report" 0 '' $report --table-dump read old; done
notes 'TABLE_DUMP beside messages' 0 "  note: $aside: 4, in old, old; $reads" tables old whole old
notes 'TABLE_DUMP in six files' 0 "  note: $aside: 12, in old, old, old, old, old and 1 more; $reads" tables old old old old old old
notes 'TABLE_DUMP beside another RIB record' 0 '' tables old table
notes 'TABLE_DUMP of IPv6' 0 "  note: $aside: 1, in old6; $reads" tables --family ipv6 old6
notes 'TABLE_DUMP of IPv6 that is read' 0 '' tables --family ipv6 --table-dump read old6
other6='no RIB record of IPv4 routes, and'
notes 'TABLE_DUMP of the other family' 0 "  note: $other6 1 of IPv6 routes, which aren't read: old6" tables old6
notes 'TABLE_DUMP of the other family, with the option' 0 "  note: $other6 1 of IPv6 routes, which aren't read: old6" tables --table-dump read old6
notes 'TABLE_DUMP of both families' 0 "  note: $other6 1 of IPv6 routes, which aren't read: old6
  note: $aside: 2, in old; $reads" tables old old6
notes 'TABLE_DUMP of both families that is read' 0 '' tables --table-dump read old old6
notes 'TABLE_DUMP begins no dump' 0 '' tables --table-dump read old table old

# ---- records of types that aren't read, and no unit
{ index 00000001; other 00000001 000D 0006; } > generic
notes 'a generic RIB' 0 "  note: $unread: 1, in generic, of TABLE_DUMP_V2 RIB_GENERIC" tables generic
for report in churn peers history faults visibility; do notes "a generic RIB: $report" 0 "  note: $unread: 1, in generic, of TABLE_DUMP_V2 RIB_GENERIC" $report generic; done
notes 'a generic RIB beside a unit' 0 '' tables generic whole
notes 'a generic RIB beside a unit that is not selected' 0 "  note: $unread: 1, in generic, of TABLE_DUMP_V2 RIB_GENERIC" tables --until 0 generic whole
{ other 00000001 0010 0002; other 00000001 0010 0002; other 00000001 0011 0007; other 00000001 0030 0000; } > kinds
notes 'three types' 0 "  note: $unread: 4, in kinds, of BGP4MP BGP4MP_ENTRY, BGP4MP_ET BGP4MP_MESSAGE_AS4_LOCAL, OSPFv3 0" tables kinds
{ cat kinds; other 00000001 000B 0001; other 00000001 0063 0001; other 00000001 0064 0001; other 00000001 0065 0001; } > more
notes 'seven types' 0 "  note: $unread: 8, in more, of BGP4MP BGP4MP_ENTRY, BGP4MP_ET BGP4MP_MESSAGE_AS4_LOCAL, OSPFv3 0, OSPFv2 1, 99 1 and others" tables more
notes 'in two files' 0 "  note: $unread: 5, in kinds, generic, of BGP4MP BGP4MP_ENTRY, BGP4MP_ET BGP4MP_MESSAGE_AS4_LOCAL, OSPFv3 0, TABLE_DUMP_V2 RIB_GENERIC" tables kinds generic
other 00000001 000C 0003 > third; notes 'TABLE_DUMP of no family' 0 "  note: $unread: 1, in third, of TABLE_DUMP 3" tables --table-dump read third
notes 'TABLE_DUMP beside such a record' 0 "  note: $aside: 2, in old; $reads
  note: $unread: 1, in generic, of TABLE_DUMP_V2 RIB_GENERIC" tables old generic
notes 'TABLE_DUMP that is read beside such a record' 0 '' tables --table-dump read old generic

# ---- files without a whole record
: > none; head -c 20 whole > part; head -c 5 whole > stump; bytes 00000001 0010 0004 FFFFFFFF > long
notes 'no record' 0 "  note: $empty: none" tables none
notes 'no record in some' 1 "  note: $empty: part, stump, long" tables whole part stump long
notes 'no record in one of two' 0 "  note: $empty: none" tables none whole
notes 'no record in seven' 0 "  note: $empty: none, none, none, none, none and 2 more" tables none none none none none none none
cp none 'a file'; notes 'quoted' 0 "  note: $empty: \"a file\"" tables 'a file'
run tables - < none; [ "$(cat said)" = "  note: $empty: standard input" ] && right || wrong "standard input: $(cat said)"
gzip -c none > none.gz; notes 'packed' 0 "  note: $empty: none.gz" tables none.gz

# ---- files that are out of order
update 00000005 C0000201 > fifth; update 00000009 C0000201 > ninth
notes 'in order' 0 '' tables whole fifth fifth ninth
notes 'out of order' 0 "  note: $early: fifth" tables ninth fifth ninth
notes 'each that is out of order' 0 "  note: $early: fifth, whole" tables ninth fifth whole ninth
notes 'not behind a file without a record' 0 "  note: $empty: none" tables ninth none fifth

# ---- a second RIB dump
{ index 00000001; rib 00000001 0002 0000 0001; rib 00000001 0002 0000 0001; } > first
{ index 00000002; rib 00000002 0002 0000 0001; } > second
notes 'one dump' 0 '' tables first
notes 'two dumps' 0 "  note: $dumps: 2, in first, second; $anew" tables first second
notes 'two dumps that are added' 0 "  note: $dumps: 2, in first, second; $anew" tables --rib add first second
cat first second second > three; notes 'three dumps in a file' 0 "  note: $dumps: 3, in three; $anew" tables three
notes 'dumps that replace what came before' 0 '' tables --rib replace first second second
notes 'such dumps in one file' 0 '' tables --rib replace three
notes 'dumps in six files' 0 "  note: $dumps: 6, in first, second, second, second, second and 1 more; $anew" tables first second second second second second
notes 'not past the last second' 0 '' tables --until 1 first second
{ cat first; index 00000002; } > bare; notes 'an index table alone' 0 '' tables bare
{ cat first; index 00000002; index 00000002; rib 00000002 0002 0000 0001; } > again; notes 'two index tables in a row' 0 "  note: $dumps: 2, in again; $anew" tables whole again
{ cat first; index 00000002; rib6 00000002 0004; } > mixed; notes 'of the other family' 0 '' tables mixed

# ---- a peer twice in a record
{ index 00000001; rib 00000001 0002 0001 0001; rib 00000001 0002 0000 0001; rib 00000001 0002 0000 0000; } > repeated
notes 'a peer twice' 0 "  note: $twice: 2, in repeated" tables repeated
{ index 00000001; rib 00000001 0008 0001 0001; } > paths; notes 'by two paths' 0 '' tables paths
{ index 00000001; rib 00000001 0002 0001 0000; } > falling; notes 'in falling order' 0 '' tables falling

# ---- several, in the order of the manual; and none where the run fails
notes 'several' 0 "  note: $idle: 8, of 65000 192.0.2.1 (8); $takes
  note: $empty: none
  note: $early: first
  note: $dumps: 2, in first, repeated; $anew
  note: $twice: 2, in repeated" tables lost none ninth first repeated
notes 'several, with dumps that replace what came before' 0 "  note: $idle: 8, of 65000 192.0.2.1 (8); $takes
  note: $empty: none
  note: $early: first
  note: $twice: 2, in repeated" tables --rib replace lost none ninth first repeated
mkdir folder; run tables folder; grep -q '^  note: ' said && wrong 'a note beside a failure' || right
run tables whole missing; grep -q '^  note: ' said && wrong 'a note beside a file that is missing' || right

# ---- each growth of a run is refused, with all later ones: no report, or the report with its notes, or with the line that they are missing
cc -O2 -shared -fPIC -o refuse.so "$here/refuse.c" || exit 2
missing='  note: notes are missing, since memory ran out'
refused() { # FILES..
  run tables --workers 1 "$@"; cp said told
  for ((growth = 1, without = 0; growth < 2000; growth++)); do
    ON=1 REFUSE=$growth LD_PRELOAD=./refuse.so ./bgp_replay tables --workers 1 "$@" > out 2> said; status=$?
    if [ $status = 0 ] && cmp -s said told; then break; fi
    if [ $status = 3 ] && [ "$(head -n 1 said)" = 'no memory' ] && [ ! -s out ]; then right
    elif [ $status = 0 ] && [ "$(cat said)" = "$missing" ]; then right; without=$((without + 1))
    else wrong "growth $growth of $*: status $status: $(cat said)"; fi
  done
  [ $growth -lt 2000 ] && [ $without -gt 0 ] && right || wrong "no run of $* is without its notes: $growth growths, $without"
}
refused none old; refused once twice

echo "$passed passed, $failed failed"
[ $failed = 0 ]
