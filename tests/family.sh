#!/usr/bin/env bash
# Tries `--family`, on the program as it is built: dumps that are spelled here in hex, and for each what `tables`,
# `churn` and `faults` print by family ipv6, by family ipv4 and without the option. The dumps hold each form of
# attribute 14 and each length of a next hop, each fault by either family, both families in one file and in one UPDATE,
# path identifiers and the ends of prefix lengths. Then the option itself, and what others take by family ipv6:
# --prefix, --prefixes, --address, --addresses, --rib, --summary. What is wanted follows from docs/FORMATS.md and the
# RFCs that it names.
#   tests/family.sh PROGRAM
# Needs bash and coreutils. The last line is `N passed, M failed`.
set -u
program=$(realpath "$1"); here=$(dirname "$(realpath "$0")"); work=$(mktemp -d); trap 'rm -rf "$work"' EXIT
cd "$work" && ln -s "$program" bgp_replay && cp "$here"/../examples/*.mrt . || exit 2
passed=0; failed=0
right() { passed=$((passed + 1)); }
wrong() { failed=$((failed + 1)); printf 'wrong: %s\n' "$*"; }

# The first line is this one, and further ones begin with two spaces; an empty line stands for nothing but notes.
says() { # FILE LINE
  if [ -z "$2" ]; then ! grep -qv '^  note: ' "$1"
  else [ "$(head -n 1 "$1")" = "$2" ] && ! tail -n +2 "$1" | grep -qv '^  '
  fi
}
try() { # STATUS LINE WRITES WORDS..: a run's status, its first line, and what it writes, the bytes of a file
  local status=$1 line=$2 writes=$3 had why=; shift 3
  ./bgp_replay "$@" > out 2> said < "${INPUT:-/dev/null}"; had=$?
  [ $had = "$status" ] || why="status $had in place of $status; "
  says said "$line" || why+="said: $(head -c 200 said | head -n 1); "
  cmp -s out "$writes" || why+="not $(head -n 1 "$writes" | head -c 200) but $(head -n 1 out | head -c 200); "
  if [ -z "$why" ]; then right; else wrong "$*: $why"; fi
}
: > nothing
refused() { local line=$1; shift; try 2 "$line" nothing "$@"; } # LINE WORDS..
# What files give, by one worker and by three; with BAD damaged records.
gives() { # FILES WORDS LINE..
  local files=$1 words=$2 workers status=0 line=; shift 2
  [ -z "${BAD:-}" ] || { status=1; line="damaged: $BAD"; }
  if [ $# = 0 ]; then : > wanted; else printf '%s\n' "$@" > wanted; fi
  for workers in 1 3; do try $status "$line" wanted $words --workers $workers $files; done
}
six() { local files=$1 words=$2; shift 2; gives "$files" "$words --family ipv6" "$@"; } # FILES WORDS LINE..
four() { # FILES WORDS LINE..
  local files=$1 words=$2; shift 2
  gives "$files" "$words" "$@"; gives "$files" "$words --family ipv4" "$@"
}

# ---- records: RFC 6396 (4.3, 4.4), RFC 4271 (4.3), RFC 4760 (3, 4)
spelled() { printf '%b' "$(tr -d '[:space:]' | sed 's/../\\x&/g')"; } # a file, from hex
sized() { local text=${1//[[:space:]]/}; printf '%04x%s' $((${#text} / 2)) "$text"; } # HEX: with its length before it
record() { # SECOND TYPE SUBTYPE BODY
  local body=${4//[[:space:]]/}; printf '%08x%04x%04x%08x%s' "$1" "$2" "$3" $((${#body} / 2)) "$body" | spelled
}
marker=ffffffffffffffffffffffffffffffff
of_peer='20010db8000000000000000000000002 20010db8000000000000000000000001'
message() { # SECOND TYPE BODY [SUBTYPE]: of AS 65000, 2001:db8::2
  local body=${3//[[:space:]]/} numbers='0000fde8 0000fde9'; case ${4:-4} in 1 | 8) numbers='fde8 fde9';; esac
  record "$1" 16 "${4:-4}" "$numbers 0000 0002 $of_peer $marker $(printf '%04x%02x' $((19 + ${#body} / 2)) "$2") $body"
}
update() { # SECOND ATTRIBUTES [WITHDRAWN [NLRI [SUBTYPE]]]
  message "$1" 2 "$(sized "${3:-}") $(sized "$2") ${4:-}" "${5:-4}"
}
states() { record "$1" 16 5 "0000fde8 0000fde9 0000 0002 $of_peer $2 $3"; } # SECOND OLD NEW
indexed() { # SECOND: two peers, 58 bytes
  record "$1" 13 1 'c0000201 0000 0002 03 c0000202 20010db8000000000000000000000002 0000fde8
    02 c0000203 c0000203 0000fde9'
}
entry() { printf '%04x00000000%s%s' "$1" "${3:+$(printf %08x "$3")}" "$(sized "$2")"; } # PEER ATTRIBUTES [IDENTIFIER]
rib() { # SECOND SUBTYPE PREFIX ENTRY..
  local second=$1 subtype=$2 prefix=$3 IFS=; shift 3
  record "$second" 13 "$subtype" "00000000 $prefix $(printf %04x $#) $*"
}
path=4001010040020602010000fde8          # ORIGIN IGP, AS_PATH of 65000
of_as() { printf '4001010040020602%02x%08x' 1 "$1"; } # AS: the same of another
next_hop=400304c0000201                  # NEXT_HOP 192.0.2.1
valued() { local text=${2//[[:space:]]/}; printf '90%02x%s' "$1" "$(sized "$text")"; } # TYPE VALUE: an attribute
reach() { # HOP KEYS [FAMILY]: attribute 14
  local hop=${1//[[:space:]]/}; valued 14 "${3:-000201} $(printf %02x $((${#hop} / 2))) $hop 00 $2"
}
unreach() { valued 15 "${2:-000201} $1"; } # KEYS [FAMILY]: attribute 15
nine=20010db8000000000000000000000009 linked=fe800000000000000000000000000009
doc=2020010db8 doc_48=3020010db80001 ten=080a

# ---- files of one peer, whose records have the second 1
peer='65000 2001:0db8:0000:0000:0000:0000:0000:0002'
# The file of this name, whose bytes come in hex: of `churn` the counts of its peer by either family, none where they
# are empty, and the lines of `tables` by family ipv6. FAULT6 and FAULT4 are those of `faults`, TABLE4 the line of
# `tables` by family ipv4, LAST the second of the last record.
row() { # NAME COUNTS6 COUNTS4 LINE..
  local name=$1 counts6=$2 counts4=$3 times=1.000000\|${LAST:-1}.000000; shift 3
  spelled > "$name"
  BAD=${FAULT6:+1} six "$name" tables "$@"
  BAD=${FAULT6:+1} six "$name" churn ${counts6:+"$peer|$counts6|$times"}
  BAD=${FAULT6:+1} six "$name" faults ${FAULT6:+"$FAULT6"}
  BAD=${FAULT4:+1} four "$name" tables ${TABLE4:+"$TABLE4"}
  BAD=${FAULT4:+1} four "$name" churn ${counts4:+"$peer|$counts4|$times"}
  BAD=${FAULT4:+1} four "$name" faults ${FAULT4:+"$FAULT4"}
}
row update_global '2|0|0|0|0|0|0|0' '0|0|0|0|0|0|0|0' "$peer|2001:db8::/32|65000|2001:db8::2|IGP|-|-|-|-" \
  "$peer|2001:db8:1::/48|65000|2001:db8::2|IGP|-|-|-|-" << 'END'
0000000100100004000000740000fde80000fde90000000220010db800000000000000000000000220010db800000000
0000000000000001ffffffffffffffffffffffffffffffff004802000000314001010040020602010000fde8800e2100
02011020010db8000000000000000000000002002020010db83020010db80001
END
row update_pair '1|0|0|0|0|0|0|0' '0|0|0|0|0|0|0|0' \
  "$peer|2001:db8::/32|65000|2001:db8::2 fe80::2|IGP|-|-|-|-" << 'END'
00000001001000040000007d0000fde80000fde90000000220010db800000000000000000000000220010db800000000
0000000000000001ffffffffffffffffffffffffffffffff0051020000003a4001010040020602010000fde8800e2a00
02012020010db8000000000000000000000002fe800000000000000000000000000002002020010db8
END
row update_default_host '2|0|0|0|0|0|0|0' '0|0|0|0|0|0|0|0' "$peer|::/0|65000|2001:db8::2|IGP|-|-|-|-" \
  "$peer|2001:db8::1/128|65000|2001:db8::2|IGP|-|-|-|-" << 'END'
00000001001000040000007a0000fde80000fde90000000220010db800000000000000000000000220010db800000000
0000000000000001ffffffffffffffffffffffffffffffff004e02000000374001010040020602010000fde8800e2700
02011020010db800000000000000000000000200008020010db8000000000000000000000001
END
row update_hostbits '1|0|0|0|0|0|0|0' '0|0|0|0|0|0|0|0' \
  "$peer|2001:db8:8000::/33|65000|2001:db8::2|IGP|-|-|-|-" << 'END'
00000001001000040000006e0000fde80000fde90000000220010db800000000000000000000000220010db800000000
0000000000000001ffffffffffffffffffffffffffffffff0042020000002b4001010040020602010000fde8800e1b00
02011020010db8000000000000000000000002002120010db8ff
END
LAST=2 row update_withdraw '2|0|0|1|0|0|0|0' '0|0|0|0|0|0|0|0' \
  "$peer|2001:db8::/32|65000|2001:db8::2|IGP|-|-|-|-" << 'END'
0000000100100004000000740000fde80000fde90000000220010db800000000000000000000000220010db800000000
0000000000000001ffffffffffffffffffffffffffffffff004802000000314001010040020602010000fde8800e2100
02011020010db8000000000000000000000002002020010db83020010db800010000000200100004000000500000fde8
0000fde90000000220010db800000000000000000000000220010db8000000000000000000000001ffffffffffffffff
ffffffffffffffff0024020000000d800f0a0002013020010db80001
END
TABLE4="$peer|10.0.0.0/8|65000|192.0.2.1|IGP|-|-|-|-" row update_both_families '1|0|0|0|0|0|0|0' '1|0|0|0|0|0|0|0' \
  "$peer|2001:db8::/32|65000|2001:db8::2|IGP|-|-|-|-" << 'END'
0000000100100004000000760000fde80000fde90000000220010db800000000000000000000000220010db800000000
0000000000000001ffffffffffffffffffffffffffffffff004a02000000314001010040020602010000fde8400304c0
000201800e1a0002011020010db8000000000000000000000002002020010db8080a
END
row update_addpath '1|0|0|0|0|0|0|0' '0|0|0|0|0|0|0|0' \
  "$peer|2001:db8::/32#7|65000|2001:db8::2|IGP|-|-|-|-" << 'END'
0000000100100009000000710000fde80000fde90000000220010db800000000000000000000000220010db800000000
0000000000000001ffffffffffffffffffffffffffffffff0045020000002e4001010040020602010000fde8800e1e00
02011020010db800000000000000000000000200000000072020010db8
END
FAULT6='1|0|-|9|BadPrefix' row update_len129 '0|0|0|0|0|0|0|1' '0|0|0|0|0|0|0|0' << 'END'
00000001001000040000007a0000fde80000fde90000000220010db800000000000000000000000220010db800000000
0000000000000001ffffffffffffffffffffffffffffffff004e02000000374001010040020602010000fde8800e2700
02011020010db8000000000000000000000002008120010db800000000000000000000000100
END
FAULT6='1|0|-|14|BadAttribute(14)' row update_nh24 '0|0|0|0|0|0|0|1' '0|0|0|0|0|0|0|0' << 'END'
0000000100100004000000750000fde80000fde90000000220010db800000000000000000000000220010db800000000
0000000000000001ffffffffffffffffffffffffffffffff004902000000324001010040020602010000fde8800e2200
02011820010db80000000020010db8000000000000000000000002002020010db8
END
row update_nh4 '1|0|0|0|0|0|0|0' '0|0|0|0|0|0|0|0' "$peer|2001:db8::/32|65000|192.0.2.1|IGP|-|-|-|-" << 'END'
0000000100100004000000610000fde80000fde90000000220010db800000000000000000000000220010db800000000
0000000000000001ffffffffffffffffffffffffffffffff0035020000001e4001010040020602010000fde8800e0e00
020104c0000201002020010db8
END
row update_safi2 '0|0|0|0|0|0|0|0' '0|0|0|0|0|0|0|0' << 'END'
00000001001000040000006d0000fde80000fde90000000220010db800000000000000000000000220010db800000000
0000000000000001ffffffffffffffffffffffffffffffff0041020000002a4001010040020602010000fde8800e1a00
02021020010db8000000000000000000000002002020010db8
END
row rib_short '1|0|0|0|0|0|0|0' '' "$peer|2001:db8::/32|65000|2001:db8::2|IGP|-|-|-|-" << 'END'
00000001000d00010000002ec00002010000000203c000020220010db80000000000000000000000020000fde802c000
0203c00002030000fde900000001000d000400000034000000002020010db80001000000000001002140010100400206
02010000fde8800e111020010db8000000000000000000000002
END
row rib_short_pair '1|0|0|0|0|0|0|0' '' "$peer|2001:db8::/32|65000|2001:db8::2 fe80::2|IGP|-|-|-|-" << 'END'
00000001000d00010000002ec00002010000000203c000020220010db80000000000000000000000020000fde802c000
0203c00002030000fde900000001000d000400000044000000002020010db80001000000000001003140010100400206
02010000fde8800e212020010db8000000000000000000000002fe800000000000000000000000000002
END
row rib_full '1|0|0|0|0|0|0|0' '' "$peer|2001:db8::/32|65000|2001:db8::2|IGP|-|-|-|-" << 'END'
00000001000d00010000002ec00002010000000203c000020220010db80000000000000000000000020000fde802c000
0203c00002030000fde900000001000d000400000038000000002020010db80001000000000001002540010100400206
02010000fde8800e150002011020010db800000000000000000000000200
END
row rib_full_nlri '1|0|0|0|0|0|0|0' '' "$peer|2001:db8::/32|65000|2001:db8::2|IGP|-|-|-|-" << 'END'
00000001000d00010000002ec00002010000000203c000020220010db80000000000000000000000020000fde802c000
0203c00002030000fde900000001000d00040000003d000000002020010db80001000000000001002a40010100400206
02010000fde8800e1a0002011020010db8000000000000000000000002002020010db8
END
row rib_full_pair '1|0|0|0|0|0|0|0' '' "$peer|2001:db8::/32|65000|2001:db8::2 fe80::2|IGP|-|-|-|-" << 'END'
00000001000d00010000002ec00002010000000203c000020220010db80000000000000000000000020000fde802c000
0203c00002030000fde900000001000d000400000048000000002020010db80001000000000001003540010100400206
02010000fde8800e250002012020010db8000000000000000000000002fe80000000000000000000000000000200
END
row rib_addpath '2|0|0|0|0|0|0|0' '' "$peer|2001:db8::/32#7|65000|2001:db8::2|IGP|-|-|-|-" \
  "$peer|2001:db8::/32#8|65000|2001:db8::2|IGP|-|-|-|-" << 'END'
00000001000d00010000002ec00002010000000203c000020220010db80000000000000000000000020000fde802c000
0203c00002030000fde900000001000d000a00000065000000002020010db80002000000000001000000070021400101
0040020602010000fde8800e111020010db8000000000000000000000002000000000001000000080021400101004002
0602010000fde8800e111020010db8000000000000000000000002
END
row rib_none '1|0|0|0|0|0|0|0' '' "$peer|2001:db8::/32|65000|-|IGP|-|-|-|-" << 'END'
00000001000d00010000002ec00002010000000203c000020220010db80000000000000000000000020000fde802c000
0203c00002030000fde900000001000d000400000020000000002020010db80001000000000001000d40010100400206
02010000fde8
END
FAULT6='1|58|1|14|BadAttribute(14)' row rib_short_trailing '0|0|0|0|0|0|0|1' '' << 'END'
00000001000d00010000002ec00002010000000203c000020220010db80000000000000000000000020000fde802c000
0203c00002030000fde900000001000d000400000035000000002020010db80001000000000001002240010100400206
02010000fde8800e121020010db800000000000000000000000200
END
row rib_full_other '1|0|0|0|0|0|0|0' '' "$peer|2001:db8::/32|65000|-|IGP|-|-|-|-" << 'END'
00000001000d00010000002ec00002010000000203c000020220010db80000000000000000000000020000fde802c000
0203c00002030000fde900000001000d00040000002c000000002020010db80001000000000001001940010100400206
02010000fde8800e0900010104c000020100
END
twice='1|0|-|14|BadAttribute(15)'
FAULT6=$twice FAULT4=$twice row update_twice_15 '0|0|0|0|0|0|0|1' '0|0|0|0|0|0|0|1' << 'END'
0000000100100004000000540000fde80000fde90000000220010db800000000000000000000000220010db800000000
0000000000000001ffffffffffffffffffffffffffffffff00280200000011800f080002012020010db8800f03000201
END

# ---- the next hop of a RIB entry: what its attributes are by family ipv6; by family ipv4 its record is aside
one_entry() { { indexed 1; rib 1 4 $doc "$(entry 0 "$1")"; } > one; }
hop_is() { # HOP ATTRIBUTES
  one_entry "$2"; six one tables "$peer|2001:db8::/32|65000|$1|IGP|-|-|-|-"; six one faults; four one churn
  four one faults
}
entry_is_damaged() { # FAULT ATTRIBUTES
  one_entry "$2"; BAD=1 six one faults "1|58|1|$1"; BAD=1 six one churn "$peer|0|0|0|0|0|0|0|1|1.000000|1.000000"
  four one churn; four one faults
}
hop_is - $path
hop_is - "$path $next_hop"
hop_is 2001:db8::9 "$path $next_hop $(valued 14 10$nine)"
hop_is 2001:db8::9 "$(valued 14 10$nine) $path $next_hop"
hop_is '2001:db8::9 fe80::9' "$path $(valued 14 20$nine$linked)"
hop_is 'fe80::9 2001:db8::9' "$path $(valued 14 20$linked$nine)"
hop_is 192.0.2.9 "$path $(valued 14 04c0000209)"
hop_is :: "$path $(valued 14 1000000000000000000000000000000000)"
hop_is ::ffff:c000:209 "$path $(valued 14 1000000000000000000000ffffc0000209)"
hop_is 2001:0:0:1::1 "$path $(valued 14 1020010000000000010000000000000001)"
hop_is 1:0:2:0:3:0:4:0 "$path $(valued 14 1000010000000200000003000000040000)"
hop_is 192.0.2.9 "$path $(valued 14 '000201 04 c0000209')"
hop_is 2001:db8::9 "$path $(valued 14 "000201 10 $nine")"
hop_is 2001:db8::9 "$path $(valued 14 "000201 10 $nine 00 $doc")"
hop_is 2001:db8::9 "$path $(valued 14 "000201 10 $nine 01 81")"
hop_is '2001:db8::9 fe80::9' "$path $(valued 14 "000201 20 $nine $linked ff")"
for family in 000101 000202 000280 000100 001946; do
  hop_is - "$path $next_hop $(valued 14 $family)"
  hop_is - "$path $(valued 14 "$family 04 c0000209 00 $ten")"
done
hop_is - "$path $(valued 14 "000202 10 $nine") $(valued 14 10$nine)"
hop_is 2001:db8::9 "$path $(valued 14 10$nine) $(valued 14 04c0000209)"
hop_is 2001:db8::9 "$(valued 14 10$nine) $path $(valued 14 '') $(valued 14 00)"
hop_is - "$path $(valued 15 '') $(valued 15 0002)"
for value in '' 00 0002 000201 '000201 00' '000201 18 000102030405060708090a0b0c0d0e0f1011121314151617' \
  "000201 10 ${nine:2}" '000201 05 0001020304' 10 "10 ${nine:2}" "10 $nine 00" '05 0001020304' \
  '18 000102030405060708090a0b0c0d0e0f1011121314151617' "20 $nine" "20 $nine $linked 00" \
  '04 c00002' '04 c0000209 00' '010201 04 c0000209' "ff $nine"; do
  entry_is_damaged '14|BadAttribute(14)' "$path $(valued 14 "$value")"
  entry_is_damaged '14|BadAttribute(14)' "$(valued 14 "$value") $path $(valued 14 10$nine)"
done
entry_is_damaged '14|BadAttribute(14)' "$(valued 14 00) 40010103"
entry_is_damaged '14|BadAttribute(1)' "40010103 $(valued 14 00)"
entry_is_damaged '14|BadAttribute(3)' "$path 400303c00002"
entry_is_damaged '13|ShortAttribute' "$path 800e1120010db8"
entry_is_damaged '15|BadPath' '40020605010000fde8'
# in a RIB record of IPv4 routes attribute 14 is skipped, and the record is aside by family ipv6
for value in '' 00 0002 "10 $nine" "000101 10 $nine" '04 c0000209'; do
  for ((subtype = 2; subtype <= 8; subtype += 6)); do
    identifier=; [ $subtype = 2 ] || identifier=7
    { indexed 1; rib 1 $subtype $ten "$(entry 0 "$path $next_hop $(valued 14 "$value")" $identifier)"; } > one
    four one tables "$peer|10.0.0.0/8${identifier:+#7}|65000|192.0.2.1|IGP|-|-|-|-"; four one faults
    six one churn; six one faults
  done
done
for subtype in 3 5 6 7 9 11 12; do
  { indexed 1; rib 1 $subtype $doc "$(entry 0 $path)"; } > one
  six one churn; six one faults; four one churn; four one faults
done

# ---- prefixes of RIB records: 0 to 128 bits, and bits past the length
prefix_is() { # PREFIX HEX
  { indexed 1; rib 1 4 "$2" "$(entry 0 $path)"; rib 1 10 "$2" "$(entry 0 $path 7)" "$(entry 0 $path 0)"; } > one
  six one tables "$peer|$1|65000|-|IGP|-|-|-|-" "$peer|$1#7|65000|-|IGP|-|-|-|-"; six one faults; four one churn
  four one faults
}
prefix_is ::/0 00
prefix_is ::/1 0100
prefix_is 8000::/1 01ff
prefix_is 2001:db8:8000::/33 2120010db8ff
prefix_is 2001:db8:0:7::/64 4020010db800000007
prefix_is ::/64 400000000000000000
prefix_is 2001:db8::8/127 7f$nine
prefix_is 2001:db8::9/128 80$nine
prefix_is ::/128 8000000000000000000000000000000000
prefix_is ::1/128 8000000000000000000000000000000001
prefix_is ::ffff:c000:200/120 7800000000000000000000ffffc00002
prefix_is 1:0:0:2::/64 400001000000000002
prefix_is 1:0:0:2::3/128 8000010000000000020000000000000003
record_is_refused() { # FAULT BYTES [SUBTYPE]: behind the index table, by family ipv6
  { indexed 1; record 1 13 "${3:-4}" "$2"; } > one
  BAD=1 six one faults "1|58|-|$1"; BAD=1 six one churn; four one churn; four one faults
}
zeros=00000000000000000000000000000000
for subtype in 4 10; do
  for length in 81 ff; do record_is_refused '9|BadPrefix' "00000000 $length $zeros 00 0000" $subtype; done
  record_is_refused '9|BadPrefix' "00000000 80 ${zeros:2}" $subtype
  record_is_refused '9|BadPrefix' '00000000 20 2001' $subtype
  record_is_refused '4|ShortRecord' 000000 $subtype
  record_is_refused '4|ShortRecord' 00000000 $subtype
  record_is_refused '4|ShortRecord' "00000000 $doc 00" $subtype
  record_is_refused '4|ShortRecord' "00000000 $doc 0001 0000 0000" $subtype
  record_is_refused '8|BadPeerIndex' "00000000 $doc 0001 0002" $subtype
  record_is_refused '5|TrailingBytes' "00000000 $doc 0000 00" $subtype
done
record_is_refused '4|ShortRecord' "00000000 $doc 0001 0000 00000000 0001" 4
record_is_refused '4|ShortRecord' "00000000 $doc 0001 0000 00000000 0000" 10
record_is_refused '5|TrailingBytes' "00000000 $doc 0001 0000 00000000 0000 00000000" 4
for subtype in 4 10; do
  rib 1 $subtype $doc > one; BAD=1 six one faults '1|0|-|7|NoPeerIndex'; four one faults
done
rib 1 2 $ten > one; six one faults; BAD=1 four one faults '1|0|-|7|NoPeerIndex'

# ---- UPDATEs by family ipv6
same='0|0|0|0|0|0|0|0|1.000000|1.000000'
hop_of() { # HOP BYTES: an UPDATE that reaches 2001:db8::/32
  update 1 "$path $next_hop $(reach "$2" $doc)" > one
  six one tables "$peer|2001:db8::/32|65000|$1|IGP|-|-|-|-"; six one faults; four one tables
  four one churn "$peer|$same"
}
hop_of 192.0.2.9 c0000209
hop_of 2001:db8::9 $nine
hop_of '2001:db8::9 fe80::9' $nine$linked
hop_of 'fe80::9 2001:db8::9' $linked$nine
hop_of ::ffff:c000:209 00000000000000000000ffffc0000209
update_is_damaged() { # FAULT FAULT4 ATTRIBUTES [WITHDRAWN [NLRI [SUBTYPE]]]: FAULT4 by family ipv4, or nothing
  local fault=$1 fault4=$2; shift 2
  update 1 "$@" > one
  BAD=1 six one faults "1|0|-|$fault"; BAD=1 six one churn "$peer|0|0|0|0|0|0|0|1|1.000000|1.000000"
  BAD=1 six one tables
  BAD=${fault4:+1} four one faults ${fault4:+"1|0|-|$fault4"}
}
for hop in '' 00 c0000209ff 0001020304050607 000102030405060708090a0b0c0d0e0f1011121314151617 "$nine$linked$nine"; do
  update_is_damaged '14|BadAttribute(14)' '' "$path $(reach "$hop" $doc)"
done
for value in '000201' '000201 10' "000201 10 ${nine:2}" "000201 10 $nine" "000201 04 c0000209" "000201 20 $nine"; do
  update_is_damaged '14|BadAttribute(14)' '' "$path $(valued 14 "$value")"
done
for code in 14 15; do
  for value in '' 00 0002; do
    update_is_damaged "14|BadAttribute($code)" "14|BadAttribute($code)" "$path $(valued $code "$value")"
  done
  more=; [ $code = 15 ] || more='04 c0000209 00'
  for first in 000202 000101 000201; do for second in '' 000101 ff; do # a second one, of any family
    update_is_damaged "14|BadAttribute($code)" "14|BadAttribute($code)" \
      "$path $(valued $code "$first $more") $(valued $code "$second")"
  done; done
done
for key in 81${zeros}00 ff$zeros$zeros 80${zeros:2} 202001 81 09ff; do
  update_is_damaged '9|BadPrefix' '' "$path $(reach $nine $doc$key)"
  update_is_damaged '9|BadPrefix' '' "$(unreach $doc$key)"
done
for key in 00 000000 00000007 0000000720 0000000781${zeros}00 00000007202001; do
  update_is_damaged '9|BadPrefix' '' "$path $(reach $nine "00000001$doc $key")" '' '' 9
  update_is_damaged '9|BadPrefix' '' "$(unreach "00000001$doc $key")" '' '' 8
done
update_is_damaged '14|BadAttribute(3)' '14|BadAttribute(3)' "$path 400305c000020100 $(reach $nine $doc)"
update_is_damaged '14|BadAttribute(1)' '14|BadAttribute(1)' "40010103 $(reach $nine $doc)"
update_is_damaged '13|ShortAttribute' '13|ShortAttribute' "$path 800e1120010db8"
update_is_damaged '15|BadPath' '15|BadPath' "40010100 40020605010000fde8 $(reach $nine $doc)"
# attributes 14 and 15 of another family: nothing behind their three bytes is examined, and they have no key
for family in 000202 000280 000100 001946; do
  update 1 "$path $(valued 14 "$family ff") $(valued 15 "$family 81")" > one
  six one churn "$peer|$same"; six one faults; four one churn "$peer|$same"; four one faults
done
update 1 "$path $(valued 14 '000201 ff') $(valued 15 '000201 ff')" > one; four one churn "$peer|$same"; four one faults
update 1 "$path $(valued 14 '000101 ff') $(valued 15 '000101 ff')" > one; six one churn "$peer|$same"; six one faults
# an UPDATE's own fields: by family ipv6 they aren't examined past their lengths
for field in ff 21 0aff "20${nine}"; do
  for which in 10 01 11; do
    withdrawn=$field nlri=$field; [ $which != 01 ] || withdrawn=; [ $which != 10 ] || nlri=
    update 1 "$path $next_hop $(reach $nine $doc)" "$withdrawn" "$nlri" > one
    six one tables "$peer|2001:db8::/32|65000|2001:db8::9|IGP|-|-|-|-"; six one faults
    BAD=1 four one faults '1|0|-|9|BadPrefix'
  done
done
update 1 "$path $next_hop $(reach $nine 00000007$doc)" 00000009 0000000720 9 > one
six one tables "$peer|2001:db8::/32#7|65000|2001:db8::9|IGP|-|-|-|-"; BAD=1 four one faults '1|0|-|9|BadPrefix'
for body in 0001 00ff0000 '0000 00ff' 0000; do
  message 1 2 "$body" > one
  fault='12|BadUpdate'; [ ${#body} != 4 ] || fault='11|BadLength'
  for families in six four; do BAD=1 $families one faults "1|0|-|$fault"; done
done
# both families in one UPDATE, each withdrawn and announced: each is read once, by its family
{ update 1 "$path $next_hop $(reach $nine $doc)" '' $ten
  update 2 "$path $next_hop $(unreach $doc) $(reach $linked $doc_48)" $ten 18c00002; } > both
six both tables "$peer|2001:db8:1::/48|65000|fe80::9|IGP|-|-|-|-"
six both churn "$peer|2|0|0|1|0|0|0|0|1.000000|2.000000"
four both tables "$peer|192.0.2.0/24|65000|192.0.2.1|IGP|-|-|-|-"
four both churn "$peer|2|0|0|1|0|0|0|0|1.000000|2.000000"
{ update 1 "$path $next_hop $(unreach $ten 000101) $(reach $nine $doc)" '' $ten; } > one
six one churn "$peer|1|0|0|0|0|0|0|0|1.000000|1.000000"; four one churn "$peer|1|0|0|0|0|0|0|0|1.000000|1.000000"
# what is withdrawn and reached in one UPDATE counts as reached, whatever its own fields have
{ update 1 "$path $(reach $nine $doc)"; update 2 "$path $(unreach $doc$doc_48) $(reach $nine $doc)"; } > one
six one churn "$peer|1|0|1|0|1|0|0|0|1.000000|2.000000"; four one churn "$peer|0|0|0|0|0|0|0|0|1.000000|2.000000"
# path identifiers, 0 among them, and by two octets AS numbers that AS4_PATH replaces
{ update 1 "$path $(reach $nine "00000007$doc 00000000$doc 00000008$doc")" '' '' 9
  update 2 "$(unreach "00000007$doc")" '' '' 9
  update 3 "$(unreach $doc)"; } > one
six one tables "$peer|2001:db8::/32#8|65000|2001:db8::9|IGP|-|-|-|-"
six one churn "$peer|3|0|0|2|0|0|0|0|1.000000|3.000000"
update 1 "40010100 400206 0202fde8 5ba0 c01106 0201 00011170 $(reach $nine $doc)" '' '' 1 > one
six one tables "$peer|2001:db8::/32|65000 70000|2001:db8::9|IGP|-|-|-|-"; four one churn "$peer|$same"

# ---- what is no matter of the family
{ message 1 4 ''; states 2 0006 0001; update 3 "$path $(reach $nine $doc)"; states 4 0001 0006
  update 5 "$path $(reach $nine $doc)"; } > one
six one churn "$peer|1|0|0|0|0|2|1|0|1.000000|5.000000"; four one churn "$peer|0|0|0|0|0|2|1|0|1.000000|5.000000"
six one 'churn --states established' "$peer|2|0|0|0|0|2|0|0|1.000000|5.000000"
printf 'stump' > stump; { update 1 "$path $(reach $nine $doc)"; printf '\0\0\0\1\0\15'; } > short_header
{ update 1 "$path $(reach $nine $doc)"; printf '\0\0\0\1\0\15\0\4\0\0\0\5\0'; } > short_body
{ update 1 "$path $(reach $nine $doc)"; printf '\0\0\0\1\0\15\0\4\1\0\0\1'; } > long_body
size=$(update 1 "$path $(reach $nine $doc)" | wc -c)
for families in six four; do
  BAD=1 $families stump faults '1|0|-|1|ShortHeader'
  BAD=1 $families short_header faults "1|$size|-|1|ShortHeader"
  BAD=1 $families short_body faults "1|$size|-|2|ShortBody"
  BAD=1 $families long_body faults "1|$size|-|3|BodyTooLong"
  record 1 16 4 '0000fde8 0000fde9 0000 0003' > one; BAD=1 $families one faults '1|0|-|6|BadFamily'
  record 1 16 4 '0000fde8 0000fde9 0000 0002 2001' > one; BAD=1 $families one faults '1|0|-|4|ShortRecord'
  { states 1 0006 0001; record 1 16 5 "0000fde8 0000fde9 0000 0002 $of_peer 0006 0001 00"; } > one
  BAD=1 $families one faults "1|$(states 1 0006 0001 | wc -c)|-|5|TrailingBytes"
  record 1 16 4 "0000fde8 0000fde9 0000 0002 $of_peer ${marker:2}00 0017 02 0000 0000" > one
  BAD=1 $families one faults '1|0|-|10|BadMarker'
  record 1 16 4 "0000fde8 0000fde9 0000 0002 $of_peer $marker 0018 02 0000 0000" > one
  BAD=1 $families one faults '1|0|-|11|BadLength'
  record 1 13 1 'c0000201 0000 0001' > one; BAD=1 $families one faults '1|0|-|4|ShortRecord'
done
BAD=1 six short_body tables "$peer|2001:db8::/32|65000|2001:db8::9|IGP|-|-|-|-"

# ---- a dump of both families: an index of two peers, RIB records of either at 1000, of the first peer an UPDATE of
# IPv6 routes at 1010, one of IPv4 routes at 1020, and the end of its session at 1030
two='65001 192.0.2.3'
{ indexed 1000
  rib 1000 2 $ten "$(entry 0 "$path $next_hop")" "$(entry 1 "$(of_as 64501) $next_hop")"
  rib 1000 4 $doc "$(entry 0 "$path $(valued 14 10$nine)")" \
    "$(entry 1 "$(of_as 64501) $(valued 14 "000201 20 $nine $linked 00")")"
  rib 1000 10 $doc_48 "$(entry 1 "$(of_as 64501)" 5)"
  update 1010 "$(of_as 64510) $(unreach $doc) $(reach $linked $doc_48)"
  update 1020 "$path $next_hop" $ten 18c00002
  states 1030 0006 0001; } > story
two_32="2001:db8::/32|64501|2001:db8::9 fe80::9|IGP|-|-|-|-" two_48='2001:db8:1::/48#5|64501|-|IGP|-|-|-|-'
one_32="2001:db8::/32|65000|2001:db8::9|IGP|-|-|-|-" one_48='2001:db8:1::/48|64510|fe80::9|IGP|-|-|-|-'
ten_one='10.0.0.0/8|65000|192.0.2.1|IGP|-|-|-|-' ten_two='10.0.0.0/8|64501|192.0.2.1|IGP|-|-|-|-' \
  doc_one='192.0.2.0/24|65000|192.0.2.1|IGP|-|-|-|-'
six story tables "$two|$two_32" "$two|$two_48"
six story 'tables --until 1000' "$peer|$one_32" "$two|$two_32" "$two|$two_48"
six story 'tables --until 1029' "$peer|$one_48" "$two|$two_32" "$two|$two_48"
six story 'visibility --until 1029' '2001:db8::/32|1' '2001:db8:1::/48|2'
six story 'visibility --until 1009' '2001:db8::/32|2' '2001:db8:1::/48|1'
six story 'origins --until 1009' '2001:db8::/32|64501 65000'
six story 'origins --until 1029' '2001:db8:1::/48|64501 64510'
six story 'seen --until 1029' '2001:db8::/32|64501|1' '2001:db8:1::/48|64501|1' '2001:db8:1::/48|64510|1'
six story history "1000.000000|$peer|new|rib|$one_32" "1000.000000|$two|new|rib|$two_32" \
  "1000.000000|$two|new|rib|$two_48" \
  "1010.000000|$peer|gone|update|$one_32" "1010.000000|$peer|new|update|$one_48" "1030.000000|$peer|lost|state|$one_48"
six story churn "$peer|2|0|0|1|0|1|0|0|1000.000000|1030.000000" "$two|2|0|0|0|0|0|0|0|1000.000000|1000.000000"
six story 'churn --since 1001' "$peer|1|0|0|1|0|1|0|0|1010.000000|1030.000000" "$two|0|0|0|0|0|0|0|0|-|-"
six story peers "$peer|down|0|4|1000.000000|1030.000000|1|134|1" "$two|up|2|2|1000.000000|1000.000000|1|134|2"
six story faults
four story tables "$two|$ten_two"
four story 'tables --until 1020' "$peer|$doc_one" "$two|$ten_two"
four story history "1000.000000|$peer|new|rib|$ten_one" "1000.000000|$two|new|rib|$ten_two" \
  "1020.000000|$peer|gone|update|$ten_one" \
  "1020.000000|$peer|new|update|$doc_one" "1030.000000|$peer|lost|state|$doc_one"
four story churn "$peer|2|0|0|1|0|1|0|0|1000.000000|1030.000000" "$two|1|0|0|0|0|0|0|0|1000.000000|1000.000000"
four story peers "$peer|down|0|4|1000.000000|1030.000000|1|58|1" "$two|up|1|1|1000.000000|1000.000000|1|58|2"
four story faults
six story 'tables --peer 65001' "$two|$two_32" "$two|$two_48"
six story 'tables --until 1000 --peer 65000,2001:db8::2' "$peer|$one_32"
six story 'tables --until 1000 --peers 1/1 --prefix 2001:db8::/32' "$peer|$one_32" "$two|$two_32"
six story 'churn --prefix 2001:db8:1::/48' "$two|1|0|0|0|0|0|0|0|1000.000000|1000.000000" \
  "$peer|1|0|0|0|0|1|0|0|1010.000000|1030.000000"
# --addresses: the addresses of IPv6 routes are short by either form, those of peers and of IPv4 routes by `short` alone
short='65000 2001:db8::2'
six story 'tables --until 1000 --addresses full' "$peer|$one_32" "$two|$two_32" "$two|$two_48"
six story 'tables --until 1000 --addresses short' "$short|$one_32" "$two|$two_32" "$two|$two_48"
six story 'peers --addresses short' "$short|down|0|4|1000.000000|1030.000000|1|134|1" \
  "$two|up|2|2|1000.000000|1000.000000|1|134|2"
six story 'history --addresses short --since 1030' "1030.000000|$short|lost|state|$one_48"
four story 'churn --addresses short --peer 65000' "$short|2|0|0|1|0|1|0|0|1000.000000|1030.000000"
update 1 "$path $(reach $nine$linked $ten 000101)" > one
pair='2001:0db8:0000:0000:0000:0000:0000:0009 fe80:0000:0000:0000:0000:0000:0000:0009'
four one tables "$peer|10.0.0.0/8|65000|$pair|IGP|-|-|-|-"
four one 'tables --addresses short' "$short|10.0.0.0/8|65000|2001:db8::9 fe80::9|IGP|-|-|-|-"
six one churn "$peer|$same"
# --summary: records of the other family are aside
value() { sed -n "s/^$1: //p" said; } # of a key
counts() { # WORDS RECORDS ASIDE UNITS PEERS ROUTES KIND..
  local words=$1 wanted="$2 $3 $4 $5 $6" had; shift 6
  ./bgp_replay churn $words --summary story > out 2> said
  had="$(value records) $(value aside) $(value units) $(value peers) $(value routes)"
  if [ "$had" = "$wanted" ]; then right; else wrong "--summary $words: $had"; fi
  if [ "$(value 'file 1 aside') $(value 'file 1 units')" = "$(value aside) $(value units)" ]; then right
  else wrong "--summary $words: file 1"; fi
  if [ "$(sed -n 's/^file 1 aside \(.*: .*\)/\1/p' said)" = "$(printf '%s\n' "$@")" ]; then right
  else wrong "--summary $words: $(grep aside said)"; fi
}
for words in '' '--family ipv4'; do
  counts "$words" 7 2 5 2 1 'TABLE_DUMP_V2 RIB_IPV6_UNICAST: 1' 'TABLE_DUMP_V2 RIB_IPV6_UNICAST_ADDPATH: 1'
done
counts '--family ipv6' 7 1 6 2 2 'TABLE_DUMP_V2 RIB_IPV4_UNICAST: 1'
# a note, where a dump has RIB records of the other family alone
noted() { # FILE WORDS NOTE
  ./bgp_replay tables $2 $1 > out 2> said
  if [ "$(grep '^  note: no RIB record' said)" = "$3" ]; then right; else wrong "the note of $1 $2: $(cat said)"; fi
}
{ indexed 1; rib 1 2 $ten; } > only4; { indexed 1; rib 1 4 $doc; rib 1 10 $doc; } > only6
noted only4 '--family ipv6' "  note: no RIB record of IPv6 routes, and 1 of IPv4 routes, which aren't read: only4"
noted only6 '--family ipv6' ''; noted only4 '' ''; noted only4 '--family ipv4' ''; noted story '--family ipv6' ''
noted story '' ''
for words in '' '--family ipv4'; do
  noted only6 "$words" "  note: no RIB record of IPv4 routes, and 2 of IPv6 routes, which aren't read: only6"
done

# ---- what daemons write: of FRR an index table and RIB records, whose entries have the whole attribute 14, of GoBGP
# and OpenBGPD UPDATEs. `bgpdump -m` prints the same routes, of two next hops the first
spelled > daemons << 'END'
6b02934a000d0001000000ecc0000202000b5652462064656661756c74000d0200000000000000000000000002c0000203c00002030000fdeb02
c0000204c00002040003000a02c0000205c00002050000fde902c0000265c00002650000fbf502c0000266c00002660000fbf602c0000268c000
026800030da802c0000269c0000269fa56ea020200000000c000026b0000fbfb03c000020120010db80099000000000000000000010000fde903
c000020420010db80099000000000000000000040003000a03c000026720010db80099000000000000000001030000fbf703c000026a20010db8
0099000000000000000001060000fbfa6b02934a000d000a000002530000121200000700096b02934400005a1900564001010050020026020900
00fde900030da80004000000000b620000232a0002000100000d1c0000232a0000fde8c0200c00030da8000000030000003c800e160002011020
010db8009900000000000000000104000000066b0293030000000000594001010050020022020800030da80004000000000b620000232a000200
0100000d1c0000232a0000fde880040400000001c0200c00030da8000000030000003c800e160002011020010db8009900000000000000000104
000000056b0292e8000000020052400101005002001602050000fbf6000002bd00000513000050050000fde8c0081817c0b15a3811dfc552f057
348354d9c495538b57c01dcc1a800e160002011020010db8009900000000000000000102000000096b0292e7000048760056400101005002001a
02060000fde90000fbf6000002bd00000513000050050000fde8c0081817c0b15a3811dfc552f057348354d9c495538b57c01dcc1a800e160002
011020010db8009900000000000000000102000000096b0292e7000058a20037400101005002001602050000fde90000fbf700000b62000002bd
0000fde8800e160002011020010db80099000000000000000001030000000b6b0292c0000000000033400101005002001202040000fbf700000b
62000002bd0000fde8800e160002011020010db80099000000000000000001030000000a6b0292c0000000000037400101005002001602050003
000a0000fbf700000b62000002bd0000fde8800e160002011020010db800990000000000000000010300006b02934a000d000400000043000012
143020010db8000f000100006b0292b5002e400101005002000080040400000000800e1c00020110000000000000000000000000000000000030
20010db8000f6b02934a000d000a00000056000012153020010db80b00000100096b02930100001848003d400101005002000602010000fde980
0e2c0002012020010db8009900000000000000000005fe8000000000000094e5c6fffefffcc9003020010db80b006b0292bf0010000400000090
0000fbf70000fdeb0000000220010db800990000000000000000010320010db8009900000000000000000003ffffffffffffffffffffffffffff
ffff0064020000004d4001010040021202040000fbf7000400000000232a0000fde8400600c007080000fbf5c6336448c008045e191e0d800e1c
0002011020010db8009900000000000000000103003020010db8101b6b0292bf001000040000008200030da80000fdeb00000001c0000268c000
0203ffffffffffffffffffffffffffffffff006e020000005740010100400216020500030da80000329c0000329c000005130000fde8c00810b8
f84ac68a6afee1a55497463e04fc37e063050102030405800e1c0002011020010db8009900000000000000000104003020010db810506b0292b8
001100040000008c00099461fa56ea020003000a0000000220010db800990000000000000000000220010db8009900000000000000000004ffff
ffffffffffffffffffffffffffff005c0200000045900e002c0002012020010db8009900000000000000000002fe800000000000005838e1fffe
2f2c28003020010db8000f40010100500200060201fa56ea02800404000000006b0292bf0011000400000085000309470000fbf70003000a0000
000220010db800990000000000000000010320010db8009900000000000000000004ffffffffffffffffffffffffffffffff0055020000003e40
01010040021602050000fbf700001a6a000000ae00001b6a0000fde8800e1e0002011020010db8009900000000000000000103004020010db820
100010
END
own='65001 2001:0db8:0099:0000:0000:0000:0000:0001'
third='64503 2001:0db8:0099:0000:0000:0000:0000:0103'
six daemons tables \
  "$own|::/0#18550|65001 64502 701 1299 20485 65000|2001:db8:99::102|IGP|-|-|-|-" \
  "$own|::/0#22690|65001 64503 2914 701 65000|2001:db8:99::103|IGP|-|-|-|-" \
  "$own|::/0#23065|65001 200104 262144 2914 9002 131073 3356 9002 65000|2001:db8:99::104|IGP|-|-|-|-" \
  "$own|2001:db8:b00::/48#6216|65001|2001:db8:99::5 fe80::94e5:c6ff:feff:fcc9|IGP|-|-|-|-" \
  "200104 192.0.2.104|::/0|200104 262144 2914 9002 131073 3356 9002 65000|2001:db8:99::104|IGP|1|-|-|-" \
  "200104 192.0.2.104|2001:db8:1050::/48|200104 12956 12956 1299 65000|2001:db8:99::104|IGP|-|-|-|-" \
  "64502 192.0.2.102|::/0#2|64502 701 1299 20485 65000|2001:db8:99::102|IGP|-|-|-|-" \
  "$third|::/0|64503 2914 701 65000|2001:db8:99::103|IGP|-|-|-|-" \
  "$third|2001:db8:101b::/48|64503 262144 9002 65000|2001:db8:99::103|IGP|-|-|atomic|64501 198.51.100.72" \
  "$third|2001:db8:2010:10::/64|64503 6762 174 7018 65000|2001:db8:99::103|IGP|-|-|-|-" \
  "196618 2001:0db8:0099:0000:0000:0000:0000:0004|::/0|196618 64503 2914 701 65000|2001:db8:99::103|IGP|-|-|-|-" \
  "0 0.0.0.0|2001:db8:f::/48||::|IGP|0|-|-|-" \
  "4200000002 2001:0db8:0099:0000:0000:0000:0000:0002|2001:db8:f::/48|4200000002|2001:db8:99::2 fe80::5838:e1ff:fe2f:2c28|IGP|0|-|-|-"

# ---- --rib replace: a dump begins with the first RIB record of the family that is asked for
{ indexed 1000; rib 1000 4 $doc "$(entry 1 $path)"; rib 1000 2 $ten "$(entry 1 "$path $next_hop")"; } > first
{ indexed 2000; rib 2000 2 18c00002 "$(entry 1 "$path $next_hop")"; } > second4
{ indexed 2001; rib 2001 4 $doc_48 "$(entry 1 $path)"; } > second6
bare_32='2001:db8::/32|65000|-|IGP|-|-|-|-' bare_48='2001:db8:1::/48|65000|-|IGP|-|-|-|-'
six 'first second4' 'tables --rib replace' "$two|$bare_32"
six 'first second4 second6' 'tables --rib replace' "$two|$bare_48"
six 'first second4 second6' 'tables --rib add' "$two|$bare_32" "$two|$bare_48"
six 'first second4 second6' 'history --rib replace' "1000.000000|$two|new|rib|$bare_32" \
  "2001.000000|$two|lost|rib|$bare_32" "2001.000000|$two|new|rib|$bare_48"
four 'first second6' 'tables --rib replace' "$two|$ten_one"
four 'first second6 second4' 'tables --rib replace' "$two|$doc_one"

# ---- --prefix, --prefixes and --address by family ipv6
update 1 "$path $(reach $nine "00 $doc 3020010db80000 8020010db8000000000000000000000001 2020010db9")" > nested
of() { echo "$peer|$1|65000|2001:db8::9|IGP|-|-|-|-"; } # PREFIX
all=$(of ::/0) doc_32=$(of 2001:db8::/32) first_48=$(of 2001:db8::/48) host=$(of 2001:db8::1/128) \
  next_32=$(of 2001:db9::/32)
six nested tables "$all" "$doc_32" "$first_48" "$host" "$next_32"
for text in 2001:db8::/32 2001:0DB8::/32 2001:db8:0:0:0:0:0:0/32 2001:DB8:0000:0000:0000:0000:0000:0000/32 \
  2001:db8:0::0/32; do
  six nested "tables --prefix $text" "$doc_32"
done
six nested 'tables --prefix 2001:db8::/32+' "$doc_32" "$first_48" "$host"
six nested 'tables --prefix 2001:db8::/32-' "$all" "$doc_32"
for text in 2001:db8::1 2001:db8::1/128 2001:db8::1+ 2001:db8:0:0:0:0:0:1/128 2001:db8:0:0:0:0::1; do
  six nested "tables --prefix $text" "$host"
done
six nested 'tables --prefix 2001:db8::1-' "$all" "$doc_32" "$first_48" "$host"
six nested 'tables --prefix ::/0+' "$all" "$doc_32" "$first_48" "$host" "$next_32"
six nested 'tables --prefix ::/0' "$all"
six nested 'tables --prefix ::'
six nested 'tables --prefix ::/1-' "$all"
six nested 'tables --prefix 2001:db8::/31+' "$doc_32" "$first_48" "$host" "$next_32"
six nested 'tables --prefix 2001:db9::/32 --prefix 2001:db8::/48' "$first_48" "$next_32"
six nested 'visibility --prefix 2001:db8::/48-' '::/0|1' '2001:db8::/32|1' '2001:db8::/48|1'
printf '# two\n\n2001:db9::/32 \r\n2001:DB8::/48-' > list6; printf '10.0.0.0/8\n' > list4
printf '2001:db8::/32\nsoon\n' > list_bad
six nested 'tables --prefixes list6' "$all" "$doc_32" "$first_48" "$next_32"
refused "error: invalid line 1 '10.0.0.0/8' in '--prefixes list4': no IPv6 address stands before its '/'" \
  tables --family ipv6 --prefixes list4 nested
refused "error: invalid line 2 'soon' in '--prefixes list_bad': it is no IPv6 address" \
  tables --family ipv6 --prefixes list_bad nested
for words in '' '--family ipv4'; do
  refused "error: invalid line 3 '2001:db9::/32' in '--prefixes list6': no IPv4 address stands before its '/'" \
    tables $words --prefixes list6 nested
done
bad_prefix() { # WHY FAMILY PREFIX..
  local why=$1 family=$2 prefix; shift 2
  for prefix; do
    local line="error: invalid value '$prefix' for '--prefix <PREFIX>': $why"
    refused "$line" tables --family $family --prefix "$prefix" nested
    [ $family = ipv6 ] || refused "$line" tables --prefix "$prefix" nested
  done
}
bad_prefix "no IPv6 address stands before its '/'" ipv6 10.0.0.0/8 0.0.0.0/0 /32 2001:db8/32 2001:db8:::/32 \
  2001::db8::/32 1:2:3:4:5:6:7/112 1:2:3:4:5:6:7:8:9/128 \
  1:2:3:4:5:6:7::8/128 ::1:2:3:4:5:6:7:8/128 12345::/16 g::/16 fe80::%eth0/64 ::ffff:192.0.2.0/120 :1::/16 \
  2001:db8:/32 '2001:db8:: /32' ' ::/0' '[::]/0'
bad_prefix 'it is no IPv6 address' ipv6 192.0.2.7 192.0.2.7+ soon '' + 2001:db8 ::1%lo ::ffff:192.0.2.1 fe80::1%eth0- \
  : ::: '::1 '
bad_prefix 'its length is not a number of 0 to 128' ipv6 2001:db8::/129 2001:db8::/ 2001:db8::/032 2001:db8::/-1 \
  2001:db8::/32/32 2001:db8::/256 2001:db8::/32++ ::/0x0
bad_prefix 'its address has bits past its length' ipv6 2001:db8::1/32 2001:db8::1/127 2001:db8::/16+ ::1/0 8000::/0-
bad_prefix "no IPv4 address stands before its '/'" ipv4 2001:db8::/32 2001:db8::/32+ ::/0 ::ffff:192.0.2.0/120
bad_prefix 'it is no IPv4 address' ipv4 2001:db8::1 ::
refused "error: invalid value '10.0.0.0/8' for '--prefix <PREFIX>': no IPv6 address stands before its '/'" \
  tables --prefix 2001:db8::/32 --prefix 10.0.0.0/8 --family ipv6 nested
# the longest match
for text in 2001:db8::1 2001:0db8::0001 2001:DB8::1 2001:db8:0:0:0:0:0:1 2001:db8:0:0:0:0::1; do
  six nested "match --address $text" "$host"
done
six nested 'match --address 2001:db8::2' "$first_48"
six nested 'match --address 2001:db8:1::' "$doc_32"
six nested 'match --address 2001:db9:ffff::1' "$next_32"
for text in :: ::1 fe80::1 ffff:ffff:ffff:ffff:ffff:ffff:ffff:ffff 1:2:3:4:5:6:7:8 1:2:3:4:5:6:7:: ::2:3:4:5:6:7:8; do
  six nested "match --address $text" "$all"
done
six nested 'match --address 2001:db8::1 --prefix 2001:db8::/32' "$doc_32"
six nested 'match --address 2001:db8::1 --addresses short' "$short|${host#*|}"
six story 'match --address 2001:db8:1::7 --until 1029' "$peer|$one_48" "$two|$two_48"
for text in 10.0.0.1 0.0.0.0 2001:db8 2001:db8::1/128 2001:db8::1%eth0 ::ffff:192.0.2.1 1:2:3:4:5:6:7:8:: \
  ::1:2:3:4:5:6:7:8 1:2:3:4::5:6:7:8 12345:: \
  1:2:3:4:5:6:7 1:2:3:4:5:6:7:8:9 ':1' '1:' ':' ':::' '1::2::3' '' ' ::' ':: ' '[::1]' 'g::'; do
  refused "bad address: $text" match --family ipv6 --address "$text" nested
done
for text in 2001:db8::1 :: ::ffff:10.0.0.1; do
  for words in '' '--family ipv4'; do refused "bad address: $text" match $words --address $text nested; done
done

# what is of the other family names the option that reads it, in the last line; what is of none names none
hinted() { # FAMILY WHAT WORDS..
  local family=$1 what=$2 other=6 name; shift 2
  [ $family = ipv4 ] || other=4
  name="  it looks like an IPv$other $what: --family ipv$other reads those, and replays IPv$other routes"
  [ $what != none ] || name=none
  ./bgp_replay "$@" --family $family nested > out 2> said < nothing
  if [ $? = 2 ] && ! [ -s out ] && [ "$(grep 'it looks like' said || echo none)" = "$name" ] &&
    { [ $what = none ] || [ "$(tail -n 1 said)" = "$name" ]; }; then right
  else wrong "$* --family $family: $(tail -n 1 said)"; fi
}
for prefix in 2001:db8::/32 2001:db8::/32+ ::/0- 2001:db8::1/32 ::/129 2001:db8::/soon; do hinted ipv4 prefix tables --prefix $prefix; done
for prefix in 192.0.2.0/24 192.0.2.0/24+ 0.0.0.0/0- 192.0.2.1/24 10.0.0.0/; do hinted ipv6 prefix tables --prefix $prefix; done
for prefix in ::1 ::1+ 2001:db8::1-; do hinted ipv4 address tables --prefix $prefix; done
hinted ipv6 address tables --prefix 192.0.2.7-
hinted ipv4 address match --address 2001:db8::1
hinted ipv6 address match --address 192.0.2.1
hinted ipv4 prefix tables --prefixes list6
hinted ipv6 prefix tables --prefixes list4
for prefix in 192.0.2/24 soon /32 ::ffff:192.0.2.0/120 fe80::%eth0/64 192.0.2.0/33; do hinted ipv4 none tables --prefix "$prefix"; done
for prefix in 2001:db8/32 soon /24 192.0.02.0/24 ::/129; do hinted ipv6 none tables --prefix "$prefix"; done
for address in 192.0.2 2001:db8::/32 ::1+ soon; do hinted ipv4 none match --address "$address"; done
for address in 2001:db8 192.0.2.0/24 192.0.2.1-; do hinted ipv6 none match --address "$address"; done
hinted ipv6 none tables --prefixes list_bad

# ---- the option: its default, the last one, and what it refuses
for report in tables visibility origins seen churn peers history faults 'match --address 17.150.214.7' \
  'tables --prefix 0.0.0.0/0+' 'churn --summary'; do
  for file in sample.mrt updates.mrt story; do
    ./bgp_replay $report $file > default 2> said_by_default; status=$?
    for words in '--family ipv4' '--family=ipv4' '--family ipv6 --family ipv4'; do
      ./bgp_replay $report $words $file > out 2> said; had=$?
      for name in said said_by_default; do grep -vE '^(seconds|peak_kib): ' $name > $name.kept; done
      if [ $had = $status ] && cmp -s out default && cmp -s said.kept said_by_default.kept; then right
      else wrong "$report $words $file isn't as without: status $had"; fi
    done
  done
done
gives story 'tables --family=ipv6' "$two|$two_32" "$two|$two_48"
gives story 'tables --family ipv4 --family ipv6' "$two|$two_32" "$two|$two_48"
printf '%s\n' "$two|$two_32" "$two|$two_48" > wanted; INPUT=story try 0 '' wanted tables --family ipv6 -
for report in tables visibility origins seen churn peers history faults 'match --address ::'; do
  for text in ipv5 '' 4 6 IPv6 ipv ipv46 'ipv4,ipv6' all both inet6 'ipv6 '; do
    refused "error: invalid value '$text' for '--family <FAMILY>': neither ipv4 nor ipv6" $report --family "$text" story
  done
  if ./bgp_replay ${report%% *} --help | grep -q -e --family; then right
  else wrong "${report%% *} --help doesn't name the option"; fi
done
./bgp_replay tables story --family > out 2> said; status=$?
if [ $status = 2 ] && [ -s said ] && [ ! -s out ]; then right; else wrong 'the option without a value'; fi

echo "$passed passed, $failed failed"
[ $failed = 0 ] && [ $passed -gt 0 ]
