#!/usr/bin/env bash
# Tries the program's lines on standard error and its statuses, on the program as it is built: each row of the README's table, and names, files and
# streams that are out of the ordinary. Of standard error the first line is compared; further lines must begin with two spaces (but with
# bad arguments, --summary and help, whose text is free). `too many records` can't be had: a run has room for 2^47.
# Rows of --prefix are those of a dump of eight records that is spelled here; the short texts of IPv6 addresses are those of RFC 5952, 4. The columns of `--header` are compared with those of each help, and the
# second line of --version with what stands in a copy of the program.
# The counts of --summary are compared with those of the headers of each dump: of examples/, and of each file in the directory that the variable SAMPLES
# names.
#   tests/program.sh PROGRAM
# Needs bash, awk and coreutils, and setpriv or runuser where it runs as root. The last line is `N passed, M failed`.
set -u
program=$(realpath "$1"); here=$(dirname "$(realpath "$0")"); work=$(mktemp -d); trap 'chmod -R u+rwx "$work"; rm -rf "$work"' EXIT
cd "$work" && ln -s "$program" bgp_replay && cp "$here/../examples/sample.mrt" sample || exit 2
head -c 1000 sample > 'cut'; : > empty; head -c 5 sample > stump
passed=0; failed=0
right() { passed=$((passed + 1)); }
wrong() { failed=$((failed + 1)); printf 'wrong: %s\n' "$*"; }

# The first line is this one, and further ones begin with two spaces; an empty line stands for nothing at all but notes (notes.sh).
says() { # FILE LINE
  if [ -z "$2" ]; then ! grep -qv '^  note: ' "$1"; else [ "$(head -n 1 "$1")" = "$2" ] && ! tail -n +2 "$1" | grep -qv '^  '; fi
}
# A run of words: its status, its first line, and what it writes: nothing, something, or the bytes of a file.
judge() { # NAME STATUS LINE WRITES HAD
  local why=
  [ "$5" = "$2" ] || why="status $5 in place of $2; "
  case $3 in '?') [ -s said ] || why+='nothing said; ';; *) says said "$3" || why+="said: $(head -c 200 said | head -n 1); ";; esac
  case $4 in
    nothing) [ ! -s out ] || why+='something written; ';;
    something) [ -s out ] || why+='nothing written; ';;
    any) ;;
    *) cmp -s out "$4" || why+="other bytes than $4; ";;
  esac
  if [ -z "$why" ]; then right; else wrong "$1: $why"; fi
}
try() { # STATUS LINE WRITES WORDS..
  local status=$1 line=$2 writes=$3; shift 3
  ./bgp_replay "$@" > out 2> said < "${INPUT:-/dev/null}"; judge "$*" "$status" "$line" "$writes" $?
}

# 0: whole
for report in tables visibility origins seen churn peers history faults 'match --address 17.150.214.7'; do
  ./bgp_replay $report sample > "whole-${report%% *}" 2> said; judge "$report sample" 0 '' any $?
done
for report in tables visibility origins seen churn peers history match; do cp whole-$report out; : > said; judge "$report isn't empty" 0 '' something 0; done
cp whole-faults out; : > said; judge 'faults is empty' 0 '' nothing 0
try 0 '' nothing tables empty
try 0 '' nothing churn empty empty
try 0 '' nothing tables /dev/null
try 0 '' nothing match --address 203.0.113.255 empty
try 0 '' whole-tables tables --workers 64 --ring 65536 sample
try 0 '' whole-tables tables --workers=1 --ring=1 sample
try 0 '' whole-tables tables sample --workers 2
try 0 '' whole-tables tables --until 18446744073709551615 sample
try 0 '' nothing tables --until 0 sample
try 0 '' whole-tables tables -- sample
try 0 '' whole-tables tables --workers 2 --workers 3 sample
try 0 '' whole-tables tables --until 0 --until 18446744073709551615 sample
try 0 '' whole-tables tables --until 9999-01-01T00:00:00Z sample
{ printf 'peer|prefix|as_path|next_hop|origin|med|local_pref|atomic|aggregator\n'; cat whole-tables; } > headed; try 0 '' headed tables --header sample
try 0 '' headed tables --workers 2 sample --header --workers 3 --until 6 --until 9999-01-01T01:00:00Z empty
printf 'file|offset|entry|number|fault\n' > headed; try 0 '' headed faults --header sample
for words in --help -h help 'tables --help' 'match -h' 'help tables'; do try 0 '' something $words; done
try 0 '' whole-tables tables --until '9999-01-01 00:00:00Z' sample
try 0 '' whole-tables tables --until 9999-01-01 sample
try 0 '' nothing tables --until 1970-01-01 sample

# --version: two lines, wherever it is asked for, and the second is what the build recorded in the program
./bgp_replay --version > version; [ "$(wc -l < version)" = 2 ] && grep -qE '^bgp_replay [0-9]+\.[0-9]+\.[0-9]+$' <(head -n 1 version) && right || wrong "--version: $(head -c 200 version)"
for words in --version -V 'tables --version' 'match -V' 'faults --version'; do try 0 '' version $words; done
grep -abo '@build:' bgp_replay | cut -d : -f 1 > marks
if [ "$(wc -l < marks)" = 1 ]; then right; else wrong "the mark @build: stands $(wc -l < marks) times in the program"; fi
recorded=$(tail -c +$(($(head -n 1 marks) + 1)) bgp_replay | head -c 128 | tr '\0' '?')
if [[ $recorded == @build:*@ && ${#recorded} = 128 ]]; then right; else wrong "not 120 bytes between the marks: $recorded"; fi
for text in 'commit 0123456789abcdef0123456789abcdef01234567, kit of 2026-11-26' 'x' "$(printf '%0120d' 7)" 'two  blanks'; do
  cp "$program" stamped; printf '%-120s' "$text" | dd of=stamped bs=1 seek=$(($(head -n 1 marks) + 7)) conv=notrunc 2> none
  if [ "$(./stamped --version | tail -n +2)" = "$text" ]; then right; else wrong "--version of another record: $(./stamped --version | tail -n +2)"; fi
done

# help: no line is wider than the terminal, and the columns are those of --header
widest() { awk '{ if (length > most) most = length } END { print most + 0 }'; }
for words in --help 'tables --help' 'visibility --help' 'origins --help' 'seen --help' 'churn --help' 'peers --help' 'history --help' 'match --help' 'faults --help'; do
  for width in 80 60 40; do
    most=$(COLUMNS=$width ./bgp_replay $words | widest); if [ "$most" -le $width ]; then right; else wrong "$words with $width columns: a line of $most"; fi
  done
  most=$(env -u COLUMNS ./bgp_replay $words | widest); if [ "$most" -le 80 ]; then right; else wrong "$words: a line of $most columns"; fi
  most=$(COLUMNS=wide ./bgp_replay $words | widest); if [ "$most" -le 80 ]; then right; else wrong "$words with a width that is none: a line of $most columns"; fi
  most=$(COLUMNS=500 ./bgp_replay $words | widest); if [ "$most" -gt 80 ]; then right; else wrong "$words with 500 columns: no line is wider than $most"; fi
  if cmp -s <(env -u COLUMNS ./bgp_replay $words | tr -s ' \n' '  ') <(COLUMNS=50 ./bgp_replay $words | tr -s ' \n' '  '); then right; else wrong "$words: other words with 50 columns"; fi
done
same_width() { # COLUMNS WIDTH
  COLUMNS=$2 ./bgp_replay tables --help > wanted; COLUMNS=$1 ./bgp_replay tables --help > out 2> said; judge "help where COLUMNS is '$1'" 0 '' wanted $?
}
same_width $' 40\n' 40; same_width 1 40; for columns in '' 0 -5; do same_width "$columns" 80; done
most=$(COLUMNS=120 ./bgp_replay tables --help | widest); if [ "$most" -gt 80 ] && [ "$most" -le 120 ]; then right; else wrong "tables --help with 120 columns: a line of $most"; fi
for report in tables visibility origins seen churn peers history faults 'match --address 10.0.0.1'; do
  told=$(./bgp_replay ${report%% *} --help | sed -n '/^Columns/,/^[^ C]/s/^  \([a-z_][a-z_]*\) .*/\1/p' | paste -sd '|')
  if [ "$told" = "$(./bgp_replay $report --header --quiet empty)" ]; then right; else wrong "$report --help has the columns $told"; fi
done

# 1: damaged
try 1 'damaged: 1' something tables cut
try 1 'damaged: 1' nothing tables stump
try 1 'damaged: 2' something churn cut cut
try 1 'damaged: 2' something faults cut sample stump
printf '1|892|-|2|ShortBody\n' > fault; try 1 'damaged: 1' fault faults cut
printf '1|0|-|1|ShortHeader\n' > fault; try 1 'damaged: 1' fault faults stump
printf '2|0|-|1|ShortHeader\n' > fault; try 1 'damaged: 1' fault faults sample stump

# 2: bad arguments
try 2 '?' nothing
for words in nothing 'nothing sample' tables match 'match sample' 'match --address 10.1.2.3' 'tables --workers 0 sample' 'tables --workers 65 sample' \
  'tables --workers -1 sample' 'tables --workers 4x sample' 'tables --workers' 'tables --ring 0 sample' 'tables --ring 65537 sample' 'tables --ring 18446744073709551616 sample' \
  'tables --until -1 sample' 'tables --until 18446744073709551616 sample' 'tables --until soon sample' 'tables --until' 'tables --frobnicate sample' 'tables -x sample' \
  'tables --until 2024-02-30 sample' 'tables --until 2024-1-1 sample' 'tables --until 2024-01-01T00:00:00 sample' 'tables --prefix' \
  'tables --prefix 192.0.2.0/24 --prefix 192.0.2.1/24 sample' 'tables --states' 'tables --states up sample' 'churn --states recorded,established sample' 'tables --rib' 'tables --rib sample' \
  'tables --state-peers' 'tables --state-peers sample' 'tables --state-peers own sample' 'tables --written-by' 'tables --written-by sample' 'tables --written-by frr,bird sample' \
  'tables --addresses' 'tables --addresses long sample' 'churn --addresses Short sample' \
  'tables --address 10.0.0.1 sample' '--workers 2 tables sample' 'match --address 10.1.2 missing --workers 0'; do
  try 2 '?' nothing $words
done
try 2 '?' nothing '' sample
try 2 '?' nothing tables $'sam\xffple'
try 2 '?' nothing $'\xff'
for address in 10.1.2 10.1.2.03 10.1.2.3.4 256.0.0.0 10.1.2. .1.2.3 +1.2.3.4 1.2.3.4/8 0x0a.1.2.3 ' 1.2.3.4' '1.2.3.4 ' '' ::1 1..2.3 0001.2.3.4 "$(head -c 5000 /dev/zero | tr '\0' 1)"; do
  try 2 "bad address: $address" nothing match --address "$address" sample
done
try 2 'bad address: 10.1.2' nothing match --address 10.1.2 missing
try 2 "error: invalid value 'long' for '--addresses <FORM>': neither full nor short" nothing tables --addresses long sample
bad_prefix() { # WHY PREFIX..
  local why=$1; shift
  for prefix in "$@"; do try 2 "error: invalid value '$prefix' for '--prefix <PREFIX>': $why" nothing tables --prefix "$prefix" sample; done
}
bad_prefix 'its address has bits past its length' 192.0.2.1/24 192.0.2.1/24+ 192.0.2.1/24- 10.0.0.1/8 0.0.0.1/0
bad_prefix 'its length is not a number of 0 to 32' 192.0.2.0/33 192.0.2.0/33+ 192.0.2.0/256 192.0.2.0/ 192.0.2.0/024 192.0.2.0/-1 192.0.2.0/24/24 192.0.2.0/24++
bad_prefix "no IPv4 address stands before its '/'" /24 192.0.2/24 192.0.2.256/24 192.0.02.0/24 2001:db8::/32 '192.0.2.0 /24' +192.0.2.0/24 /
bad_prefix 'it is no IPv4 address' soon 192.0.2 192.0.2. 192.0.2.256 ::1 + ' 192.0.2.0'
tip() { # TIP WORDS..
  local tip=$1; shift
  try 2 '?' nothing "$@"
  if [ "$(grep tip: said)" = "$tip" ]; then right; else wrong "$*: the tip $(grep tip: said)"; fi
}
tip "  tip: '--address' is an option of match" tables --address 10.0.0.1 sample
tip "  tip: a similar argument exists: '--until'" tables --untill 5 sample
tip "  tip: a similar argument exists: '--addresses'" tables --adresses short sample
tip "  tip: to pass '-sample.mrt' as a file, use '-- -sample.mrt'" tables -sample.mrt
tip '' tables --xyzzy sample
tip '' tables -x sample
tip '' tables --quux=1.5 sample
tip "  tip: to pass '--bview.20240101.mrt' as a file, use '-- --bview.20240101.mrt'" tables --bview.20240101.mrt
tip "  tip: to pass '-rib.mrt' as a file, use '-- -rib.mrt'" tables -rib.mrt

# all that is said of a value: what it may be, and what it looks like
all_said() { # TEXT
  if [ "$(cat said)" = "$1" ]; then right; else wrong "said in place of $(head -n 1 <<< "$1"): $(cat said)"; fi
}
told() { # TEXT WORDS..
  local text=$1; shift
  try 2 "$(head -n 1 <<< "$text")" nothing "$@"; all_said "$text"
}
may_be() { echo "  it may be $1, $1+ (more specifics too), $1- (less specifics too) or an address"; } # EXAMPLE
like() { echo "  it looks like an IPv$1 $2: --family ipv$1 reads those, and replays IPv$1 routes"; } # FAMILY WHAT
told_prefix() { # FAMILY PREFIX WHY [LIKE]
  local example=192.0.2.0/24; [ $1 = ipv4 ] || example=2001:db8::/32
  told "error: invalid value '$2' for '--prefix <PREFIX>': $3"$'\n'"$(may_be $example)${4:+$'\n'$4}" tables --family $1 --prefix $2 sample
}
told "error: invalid value 'ipv5' for '--family <FAMILY>': neither ipv4 nor ipv6" tables --family ipv5 sample
told "error: invalid value 'quagga' for '--written-by <NAME>': no daemon whose dumps are known by this name"$'\n''  it may be bird, frr, openbgpd or gobgp' tables --written-by quagga sample
told_prefix ipv4 2001:db8::/32 "no IPv4 address stands before its '/'" "$(like 6 prefix)"
told_prefix ipv4 ::1/129+ "no IPv4 address stands before its '/'" "$(like 6 prefix)"
told_prefix ipv4 192.0.2.1/24 'its address has bits past its length'
told_prefix ipv6 192.0.2.0/24 "no IPv6 address stands before its '/'" "$(like 4 prefix)"
told_prefix ipv6 192.0.2.7 'it is no IPv6 address' "$(like 4 address)"
told_prefix ipv6 192.0.2/24 "no IPv6 address stands before its '/'"
told_prefix ipv6 ::/129 'its length is not a number of 0 to 128'
for address in 2001:db8::1 ::; do told "bad address: $address"$'\n'"$(like 6 address)" match --address $address sample; done
for address in 2001:db8::/32 2001:db8::1+ ::ffff:192.0.2.1 192.0.2; do told "bad address: $address" match --address $address sample; done
told 'bad address: 192.0.2.1'$'\n'"$(like 4 address)" match --family ipv6 --address 192.0.2.1 sample
for address in 192.0.2.1/32 192.0.2.01 2001:db8 ''; do told "bad address: $address" match --family ipv6 --address "$address" sample; done
try 0 '' any match --address 0.0.0.0 sample
try 0 '' any match --address 255.255.255.255 sample

# 3: a file can't be opened
try 3 'open failed: file 1' nothing tables missing
try 3 'open failed: file 2' nothing tables sample missing
try 3 'open failed: file 3' nothing tables - sample missing
try 3 'open failed: file 1' nothing tables ''
try 3 'open failed: file 1' nothing tables sample/below
try 3 'open failed: file 2' nothing tables cut missing missing
mkdir locked; cp sample locked/sample; cp sample unreadable; chmod 000 unreadable locked
as_nobody() { if [ "$(id -u)" != 0 ]; then "$@"; elif command -v setpriv > none; then setpriv --reuid 65534 --regid 65534 --clear-groups "$@"; else runuser -u nobody -- "$@"; fi; }
cp "$program" own; chmod 755 own . ; chmod 644 sample
as_nobody ./own tables sample unreadable > out 2> said; judge 'a file without leave' 3 'open failed: file 2' nothing $?
as_nobody ./own tables locked/sample > out 2> said; judge 'a directory without leave' 3 'open failed: file 1' nothing $?
# All files are opened before any is read: standard input never ends here.
mkfifo endless; exec 9<> endless
timeout 60 ./bgp_replay tables - missing < endless > out 2> said; judge 'a missing file behind an endless one' 3 'open failed: file 2' nothing $?
exec 9>&-

# 3: a file can't be read
mkdir folder
./bgp_replay tables folder > out 2> said; status=$?
case $(head -n 1 said) in 'open failed: file 1') judge 'a directory' 3 'open failed: file 1' nothing $status;; *) judge 'a directory' 3 'read failed: file 1' nothing $status;; esac
./bgp_replay churn sample folder > out 2> said; status=$?
case $(head -n 1 said) in 'open failed: file 2') judge 'a directory behind a file' 3 'open failed: file 2' nothing $status;; *) judge 'a directory behind a file' 3 'read failed: file 2' nothing $status;; esac
./bgp_replay tables - < folder > out 2> said; judge 'a directory as standard input' 3 'read failed: file 1' nothing $?
./bgp_replay tables sample - < folder > out 2> said; judge 'a directory as standard input, second' 3 'read failed: file 2' nothing $?
./bgp_replay tables - > out 2> said 0> writable; judge 'standard input that is for writing' 3 'read failed: file 1' nothing $?

# 3: a write failed
for report in tables visibility origins seen churn peers history 'match --address 17.150.214.7'; do
  : > out; ./bgp_replay $report sample > /dev/full 2> said; judge "$report to a full device" 3 'write failed' nothing $?
done
./bgp_replay faults cut > /dev/full 2> said; judge 'faults to a full device' 3 'write failed' nothing $?
./bgp_replay faults sample > /dev/full 2> said; judge 'an empty report to a full device' 0 '' nothing $?
./bgp_replay --help > /dev/full 2> said; judge 'help to a full device' 3 'write failed' nothing $?
./bgp_replay --version > /dev/full 2> said; judge 'the version to a full device' 3 'write failed' nothing $?
./bgp_replay tables sample > /dev/full 2> /dev/full; [ $? = 3 ] && right || wrong 'two full devices'
./bgp_replay tables cut > out 2> /dev/full; [ $? = 1 ] && cmp -s out <(./bgp_replay tables cut 2> none) && right || wrong 'a full device for standard error'
{ sleep 0.3; ./bgp_replay tables sample 2> said; echo $? > status; } | true; : > out; judge 'a pipe that nobody reads' 3 '' nothing "$(cat status)"
: > out; ./bgp_replay tables sample 2> said >&-; judge 'a closed standard output' 3 'write failed' nothing $?
{ ./bgp_replay tables sample 2> said; echo $? > status; } | head -c 100 > front; head -c 100 whole-tables | cmp -s - front && right || wrong 'the front of a report'

# 3: memory
{ printf '\0\0\0\1\0\143\0\1\1\0\0\0'; head -c 16777216 /dev/zero; } > large
try 0 '' nothing tables large
for kilobytes in 24000 20000 16000; do
  (ulimit -v $kilobytes; exec ./bgp_replay tables --workers 1 large > out 2> said); status=$?
  [ $status = 0 ] || break
done
judge 'a body without memory' 3 'no memory' nothing $status

# standard input
INPUT=sample try 0 '' whole-tables tables -
INPUT=sample try 0 '' whole-tables tables - -
INPUT=sample try 0 '' whole-tables tables - empty -
INPUT='cut' try 1 'damaged: 1' something tables - -
cat sample | ./bgp_replay churn - > out 2> said; judge 'a pipe' 0 '' whole-churn $?
{ head -c 700 sample; sleep 0.2; tail -c +701 sample; } | ./bgp_replay churn - > out 2> said; judge 'a slow pipe' 0 '' whole-churn $?
./bgp_replay tables sample > twice 2> said; ./bgp_replay tables sample sample > out 2> said; judge 'the sample twice' 0 '' twice $?
./bgp_replay churn sample - < /dev/null > out 2> said; judge 'an empty standard input' 0 '' whole-churn $?
mkfifo fifo; cat sample > fifo & ./bgp_replay tables fifo > out 2> said; judge 'a named pipe' 0 '' whole-tables $?

# names
for name in 'two words' $'two\nlines' ' ' $'tab\there' 'dump*?[a]' $'caf\xc3\xa9' '--until' '-' "$(printf 'n%.0s' {1..250})"; do
  cp sample "./$name"; try 0 '' whole-tables tables -- "./$name"
done
cp sample ./-x; try 0 '' whole-tables tables -- -x
cp sample $'./raw\xff'; try 2 'error: an argument is not UTF-8 text' nothing tables $'./raw\xff' sample $'\xfe'
[ "$(tail -n +2 said)" = '  argument 2: ./raw\xff; give such a file by a symbolic link with another name, or as <(cat FILE)
  argument 4: \xfe; give such a file by a symbolic link with another name, or as <(cat FILE)' ] && right || wrong "what is said of names that aren't text: $(tail -n +2 said)"
try 2 'error: an argument is not UTF-8 text' nothing tables "$(head -c 5000 /dev/zero | tr '\0' 1)" $'./raw\xff'; [ "$(wc -l < said)" = 2 ] && right || wrong 'a long word before one that is not text'
INPUT=$'./raw\xff' try 0 '' whole-tables tables -
ln -s $'./raw\xff' link; try 0 '' whole-tables tables link
try 0 '' whole-tables tables <(cat $'./raw\xff')
try 3 'open failed: file 1' nothing tables $'no\nsuch'
try 3 'open failed: file 2' nothing tables sample $'  no such'
printf '%s\n' {1..300} > numbers; mapfile -t many < <(sed 's/.*/empty/' numbers)
try 0 '' whole-tables tables sample "${many[@]}"
printf '%s\n' {1..3000} > numbers; mapfile -t thousands < <(sed 's/.*/empty/' numbers)
(ulimit -n 256; ./bgp_replay tables sample "${thousands[@]}" > out 2> said); judge '3,001 files with 256 descriptors' 0 '' whole-tables $?
(ulimit -n 256; ./bgp_replay churn "${thousands[@]}" 'cut' > out 2> said); judge '3,000 files and a damaged one with 256 descriptors' 1 'damaged: 1' something $?
for open in 20 5; do (ulimit -n $open; ./bgp_replay tables sample "${many[@]}" > out 2> said); judge "301 files with $open descriptors" 0 '' whole-tables $?; done


# --prefix: two peers of an index, their RIB entries at 1000, messages at 1010, 1020 and 1030, a state change at 1040, and a message at 1050
sed 's/../\\x&/g' > hex << 'END'
000003e8000d000100000022c00002fa0000000202c0000201c00002010000fde902c0000202c00002020000fdea
000003e8000d00020000004a0000000018c63364000200000000038400184001010040020a02020000fde90000fbf4400304c000020100010000038400184001010040020a02020000fdea0000fbf4400304c0000202
000003e8000d00020000002a0000000118cb0071000100000000038400184001010040020a02020000fde90000fbf4400304c0000201
000003f2001000040000004c0000fdea0000fde700000001c0000202c00002feffffffffffffffffffffffffffffffff003802000000184001010040020a02020000fdea0000fde7400304c000020219c633640018cb0071
000003fc00100004000000340000fde90000fde700000001c0000201c00002feffffffffffffffffffffffffffffffff002002000918c6336419c00002000000
0000040600100004000000470000fdea0000fde700000001c0000202c00002feffffffffffffffffffffffffffffffff003302000000184001010040020a02020000fdea0000fbf4400304c000020218c63364
0000041000100005000000180000fdea0000fde700000001c0000202c00002fe00060001
0000041a00100004000000470000fdea0000fde700000001c0000202c00002feffffffffffffffffffffffffffffffff003302000000184001010040020a02020000fdea0000fbf4400304c000020218c63364
END
while read -r record; do printf "$record"; done < hex > eight
lists() { # WORDS LINE..
  local words=$1 workers; shift
  if [ $# = 0 ]; then : > wanted; else printf '%s\n' "$@" > wanted; fi
  for workers in 1 3; do try 0 '' wanted $words --workers $workers eight; done
}
one_24='65001 192.0.2.1|198.51.100.0/24|65001 64500|192.0.2.1|IGP|-|-|-|-'
one_203='65001 192.0.2.1|203.0.113.0/24|65001 64500|192.0.2.1|IGP|-|-|-|-'
two_24='65002 192.0.2.2|198.51.100.0/24|65002 64500|192.0.2.2|IGP|-|-|-|-'
of_one=${one_24#*|} of_two=${two_24#*|}
two_25='65002 192.0.2.2|198.51.100.0/25|65002 64999|192.0.2.2|IGP|-|-|-|-'
two_203='65002 192.0.2.2|203.0.113.0/24|65002 64999|192.0.2.2|IGP|-|-|-|-'
lists tables "$one_203"
lists 'tables --prefix 198.51.100.0/24'
lists 'tables --prefix 203.0.113.0/24' "$one_203"
lists 'tables --until 1030' "$one_203" "$two_24" "$two_25" "$two_203"
lists 'tables --until 1009' "$one_24" "$one_203" "$two_24"
lists 'tables --prefix 198.51.100.0/24 --until 1009' "$one_24" "$two_24"
lists 'tables --prefix 198.51.100.0/24 --until 1030' "$two_24"
lists 'tables --prefix 198.51.100.0/25 --until 1030' "$two_25"
lists 'tables --prefix 198.51.100.0/24+ --until 1030' "$two_24" "$two_25"
lists 'tables --prefix 198.51.100.128/25- --until 1030' "$two_24"
lists 'tables --prefix 198.51.100.7- --until 1030' "$two_24" "$two_25"
lists 'tables --prefix 198.51.100.7 --until 1030'
lists 'tables --prefix 198.51.100.7+ --until 1030'
lists 'tables --prefix 0.0.0.0/0 --until 1030'
lists 'tables --prefix 198.51.100.0/25 --prefix 198.51.100.0/24 --until 1030' "$two_24" "$two_25"
lists 'tables --prefix 198.51.100.0/25 --prefix 203.0.113.128/25- --prefix 198.51.100.0/25 --until 1030' "$one_203" "$two_25" "$two_203"
lists 'visibility --until 1030' '198.51.100.0/24|1' '198.51.100.0/25|1' '203.0.113.0/24|2'
lists 'visibility --prefix 198.51.100.0/24+ --until 1030' '198.51.100.0/24|1' '198.51.100.0/25|1'
lists 'origins --until 1030' '203.0.113.0/24|64500 64999'
lists 'origins --prefix 203.0.113.0/24 --until 1030' '203.0.113.0/24|64500 64999'
lists 'origins --prefix 198.51.100.0/24 --until 1030'
lists 'match --address 198.51.100.1 --until 1030' "$two_25"
lists 'match --address 198.51.100.1 --until 1030 --prefix 198.51.100.0/24' "$two_24"
lists churn '65001 192.0.2.1|2|0|0|1|1|0|0|0|1000.000000|1020.000000' '65002 192.0.2.2|3|0|1|0|0|1|1|0|1000.000000|1050.000000'
lists 'tables --peer 65001' "$one_203"
lists 'tables --peer 65001 --until 1009' "$one_24" "$one_203"
lists 'tables --peer 65001,192.0.2.2 --until 1009'
lists 'tables --peer 65002 --peer 65001,192.0.2.1 --until 1030' "$one_203" "$two_24" "$two_25" "$two_203"
lists 'tables --peer 65002 --prefix 198.51.100.0/24 --until 1009' "$two_24"
lists 'churn --peer 65001' '65001 192.0.2.1|2|0|0|1|1|0|0|0|1000.000000|1020.000000'
lists 'churn --since 1020' '65001 192.0.2.1|0|0|0|1|1|0|0|0|1020.000000|1020.000000' '65002 192.0.2.2|0|0|1|0|0|1|1|0|1030.000000|1050.000000'
lists 'churn --since 1041' '65001 192.0.2.1|0|0|0|0|0|0|0|0|-|-' '65002 192.0.2.2|0|0|0|0|0|0|1|0|1050.000000|1050.000000'
lists 'churn --since 1020 --until 1039 --peer 65002' '65002 192.0.2.2|0|0|1|0|0|0|0|0|1030.000000|1030.000000'
lists 'churn --prefix 198.51.100.0/24' '65001 192.0.2.1|1|0|0|1|0|0|0|0|1000.000000|1020.000000' '65002 192.0.2.2|1|0|1|0|0|1|1|0|1000.000000|1050.000000'
lists 'churn --prefix 198.51.100.0/24+' '65001 192.0.2.1|1|0|0|1|0|0|0|0|1000.000000|1020.000000' '65002 192.0.2.2|2|0|1|0|0|1|1|0|1000.000000|1050.000000'
lists 'churn --prefix 192.0.2.0/25 --since 1020' '65001 192.0.2.1|0|0|0|0|1|0|0|0|1020.000000|1020.000000' '65002 192.0.2.2|0|0|0|0|0|1|0|0|1040.000000|1040.000000'
lists 'churn --since 0' '65001 192.0.2.1|2|0|0|1|1|0|0|0|1000.000000|1020.000000' '65002 192.0.2.2|3|0|1|0|0|1|1|0|1000.000000|1050.000000'
lists 'visibility --until 1030 --peers 1/2' '203.0.113.0/24|1'
lists 'visibility --until 1030 --peers 2/2' '198.51.100.0/24|1' '198.51.100.0/25|1' '203.0.113.0/24|1'
lists 'origins --until 1030 --peers 1/2'
lists 'origins --until 1030 --peers 2/2'
lists peers '65001 192.0.2.1|up|1|3|1000.000000|1020.000000|1|46|1' '65002 192.0.2.2|down|0|5|1000.000000|1050.000000|1|46|2'
lists 'peers --states established' '65001 192.0.2.1|up|1|3|1000.000000|1020.000000|1|46|1' '65002 192.0.2.2|down|1|5|1000.000000|1050.000000|1|46|2'
lists 'churn --states established --peer 65002' '65002 192.0.2.2|4|0|1|0|0|1|0|0|1000.000000|1050.000000'
lists 'churn --states recorded --peer 65002' '65002 192.0.2.2|3|0|1|0|0|1|1|0|1000.000000|1050.000000'
lists 'tables --states established' "$one_203" "$two_24"
lists 'history --prefix 198.51.100.0/24 --peer 65002 --since 1040 --states established' "1040.000000|65002 192.0.2.2|lost|state|$of_two" "1050.000000|65002 192.0.2.2|new|update|$of_two"
lists 'peers --until 1030' '65001 192.0.2.1|up|1|3|1000.000000|1020.000000|1|46|1' '65002 192.0.2.2|up|3|3|1000.000000|1030.000000|1|46|2'
lists 'peers --until 1030 --peers 2/2' '65002 192.0.2.2|up|3|3|1000.000000|1030.000000|1|46|2'
lists 'peers --until 1030 --prefix 198.51.100.0/25' '65002 192.0.2.2|up|1|1|1010.000000|1010.000000|1|186|-'
lists 'history --prefix 198.51.100.0/24' "1000.000000|65001 192.0.2.1|new|rib|$of_one" "1000.000000|65002 192.0.2.2|new|rib|$of_two" \
  "1020.000000|65001 192.0.2.1|gone|update|$of_one" "1040.000000|65002 192.0.2.2|lost|state|$of_two"
lists 'history --prefix 198.51.100.0/24 --same' "1000.000000|65001 192.0.2.1|new|rib|$of_one" "1000.000000|65002 192.0.2.2|new|rib|$of_two" \
  "1020.000000|65001 192.0.2.1|gone|update|$of_one" "1030.000000|65002 192.0.2.2|same|update|$of_two" "1040.000000|65002 192.0.2.2|lost|state|$of_two"
lists 'history --prefix 198.51.100.0/24 --since 1020 --until 1039' "1020.000000|65001 192.0.2.1|gone|update|$of_one"
lists 'history --prefix 192.0.2.0/25' '1020.000000|65001 192.0.2.1|void|update|192.0.2.0/25|-|-|-|-|-|-|-'
lists 'seen --until 1000' '198.51.100.0/24|64500|2' '203.0.113.0/24|64500|1'
lists 'seen --until 1030' '198.51.100.0/24|64500|1' '198.51.100.0/25|64999|1' '203.0.113.0/24|64500|1' '203.0.113.0/24|64999|1'
lists 'seen --until 1030 --peers 2/2' '198.51.100.0/24|64500|1' '198.51.100.0/25|64999|1' '203.0.113.0/24|64999|1'
printf '%s\n' "$two_24" "$two_25" "$two_203" > wanted; try 0 '' wanted tables --peer '65002 192.0.2.2' --until 1030 eight
for words in '--peers 0/4' '--peers 5/4' '--peers 1/65537' '--peer AS65001' '--peer 65001,192.0.2' '--prefix 192.0.2.1/24' '--prefix 192.0.2.0/33'; do try 2 '?' nothing tables $words eight; done
for words in 'churn --prefix 198.51.100.1/24' 'churn --since 5 --until 4' 'churn --since soon' 'churn --same' 'peers --since 5' 'history --since 5 --until 4' 'history --since soon' 'tables --since 5' 'tables --same'; do try 2 '?' nothing $words eight; done

# --addresses: two peers with IPv6 addresses, and next hops of one and of two (RFC 8950, 3), in messages at 1000 and 1010
sed 's/../\\x&/g' > hex << 'END'
000003e8001000040000006c0000fde90000fde70000000220010db8000000000001000000000001fe800000000000000000000000000001ffffffffffffffffffffffffffffffff004002000000294001010040020602010000fde9800e1900010110200100000000000100000000000000010018c63364
000003f2001000040000007c0000fde90000fde70000000220010db8000000010001000100010001fe800000000000000000000000000001ffffffffffffffffffffffffffffffff005002000000394001010040020602010000fde9800e290001012000000000000000000000ffffc0000201fe8000000000000000000000000000020018cb0071
END
while read -r record; do printf "$record"; done < hex > over6
prints() { # WORDS LINE..
  local words=$1; shift
  printf '%s\n' "$@" > wanted; try 0 '' wanted $words over6
}
first6='2001:0db8:0000:0000:0001:0000:0000:0001' second6='2001:0db8:0000:0001:0001:0001:0001:0001'
to_first='198.51.100.0/24|65001|2001:0000:0000:0001:0000:0000:0000:0001|IGP|-|-|-|-'
to_second='203.0.113.0/24|65001|0000:0000:0000:0000:0000:ffff:c000:0201 fe80:0000:0000:0000:0000:0000:0000:0002|IGP|-|-|-|-'
first_short='2001:db8::1:0:0:1' second_short='2001:db8:0:1:1:1:1:1'
to_first_short='198.51.100.0/24|65001|2001:0:0:1::1|IGP|-|-|-|-' to_second_short='203.0.113.0/24|65001|::ffff:c000:201 fe80::2|IGP|-|-|-|-'
for words in tables 'tables --addresses full' 'tables --addresses short --addresses full'; do prints "$words" "65001 $first6|$to_first" "65001 $second6|$to_second"; done
for workers in 1 3; do prints "tables --addresses short --workers $workers" "65001 $first_short|$to_first_short" "65001 $second_short|$to_second_short"; done
prints 'match --address 198.51.100.7 --addresses short' "65001 $first_short|$to_first_short"
prints 'history --addresses short' "1000.000000|65001 $first_short|new|update|$to_first_short" "1010.000000|65001 $second_short|new|update|$to_second_short"
prints 'peers --addresses short' "65001 $first_short|up|1|1|1000.000000|1000.000000|1|0|-" "65001 $second_short|up|1|1|1010.000000|1010.000000|1|120|-"
prints 'churn --addresses short' "65001 $first_short|1|0|0|0|0|0|0|0|1000.000000|1000.000000" "65001 $second_short|1|0|0|0|0|0|0|0|1010.000000|1010.000000"
prints 'churn --since 1005 --addresses short' "65001 $first_short|0|0|0|0|0|0|0|0|-|-" "65001 $second_short|1|0|0|0|0|0|0|0|1010.000000|1010.000000"
prints 'visibility --addresses short' '198.51.100.0/24|1' '203.0.113.0/24|1'
prints "tables --peer 65001,$first_short --addresses short" "65001 $first_short|$to_first_short"

# What happened at three peers, in two files. Before the RIB dump the first peer announces two prefixes, and one of them
# again by another path; the second announces one of them; the third one two paths of it, of which it withdraws one, and
# one that it never had. The RIB dump agrees with both routes of the first peer and differs from the second's. Then the
# first announces a third prefix, and leaves Established with three routes.
sed 's/../\\x&/g' > hex << 'END'
000007d0001000040000004b0000fde90000fa0100000001c0000201c00002feffffffffffffffffffffffffffffffff003702000000184001010040020a02020000fde90000fbf4400304c000020118c6336418cb0071
000007d100100004000000470000fdea0000fa0100000001c0000202c00002feffffffffffffffffffffffffffffffff003302000000184001010040020a02020000fdea0000fbf4400304c000020218c63364
000007d200100004000000470000fde90000fa0100000001c0000201c00002feffffffffffffffffffffffffffffffff003302000000184001010040020a02020000fde90000fde7400304c000020118c63364
000007d200100009000000530000fdeb0000fa0100000001c0000203c00002feffffffffffffffffffffffffffffffff003f02000000184001010040020a02020000fdeb0000fbf4400304c00002030000000118c633640000000218c63364
000007d3001000090000003b0000fdeb0000fa0100000001c0000203c00002feffffffffffffffffffffffffffffffff00270200100000000118c633640000000718c633640000
END
while read -r record; do printf "$record"; done < hex > before
sed 's/../\\x&/g' > hex << 'END'
000007da000d00010000002fc00002fa0000000302c0000201c00002010000fde902c0000202c00002020000fdea02c0000203c00002030000fdeb
000007da000d00020000004a0000000018c6336400020000000005dc00184001010040020a02020000fde90000fde7400304c00002010001000005dc00184001010040020a02020000fdea0000fde7400304c0000202
000007da000d00020000002a0000000118cb007100010000000005dc00184001010040020a02020000fde90000fbf4400304c0000201
000007e400100004000000480000fde90000fa0100000001c0000201c00002feffffffffffffffffffffffffffffffff003402000000184001010040020a02020000fde90000fbf4400304c000020119c0000200
000007ee00100005000000180000fde90000fa0100000001c0000201c00002fe00060001
END
while read -r record; do printf "$record"; done < hex > after
tells() { local words=$1; shift; printf '%s\n' "$@" > wanted; try 0 '' wanted $words before after; } # WORDS LINE..
one='65001 192.0.2.1' two='65002 192.0.2.2' three='65003 192.0.2.3'
by_one='192.0.2.1|IGP|-|-|-|-' by_two='192.0.2.2|IGP|-|-|-|-' by_three='192.0.2.3|IGP|-|-|-|-'
happened=(
  "2000.000000|$one|new|update|198.51.100.0/24|65001 64500|$by_one"
  "2000.000000|$one|new|update|203.0.113.0/24|65001 64500|$by_one"
  "2001.000000|$two|new|update|198.51.100.0/24|65002 64500|$by_two"
  "2002.000000|$one|changed|update|198.51.100.0/24|65001 64999|$by_one"
  "2002.000000|$three|new|update|198.51.100.0/24#1|65003 64500|$by_three"
  "2002.000000|$three|new|update|198.51.100.0/24#2|65003 64500|$by_three"
  "2003.000000|$three|gone|update|198.51.100.0/24#1|65003 64500|$by_three"
  "2003.000000|$three|void|update|198.51.100.0/24#7|-|-|-|-|-|-|-"
  "2010.000000|$one|same|rib|198.51.100.0/24|65001 64999|$by_one"
  "2010.000000|$two|changed|rib|198.51.100.0/24|65002 64999|$by_two"
  "2010.000000|$one|same|rib|203.0.113.0/24|65001 64500|$by_one"
  "2020.000000|$one|new|update|192.0.2.0/25|65001 64500|$by_one"
  "2030.000000|$one|lost|state|192.0.2.0/25|65001 64500|$by_one"
  "2030.000000|$one|lost|state|198.51.100.0/24|65001 64999|$by_one"
  "2030.000000|$one|lost|state|203.0.113.0/24|65001 64500|$by_one")
tells 'history --same' "${happened[@]}"
tells 'history' "${happened[@]:0:8}" "${happened[9]}" "${happened[@]:11}"
tells 'history --since 2002 --until 2010' "${happened[@]:3:5}" "${happened[9]}"
tells 'history --since 2003 --until 2003 --same' "${happened[@]:6:2}"
tells 'history --prefix 203.0.113.0/24 --same' "${happened[1]}" "${happened[10]}" "${happened[14]}"
tells 'history --peer 65003 --peer 65002' "${happened[2]}" "${happened[@]:4:4}" "${happened[9]}"
tells churn "$one|3|1|2|0|0|1|0|0|2000.000000|2030.000000" "$two|1|1|0|0|0|0|0|0|2001.000000|2010.000000" "$three|2|0|0|1|1|0|0|0|2002.000000|2003.000000"
tells 'churn --since 2010' "$one|1|0|2|0|0|1|0|0|2010.000000|2030.000000" "$two|0|1|0|0|0|0|0|0|2010.000000|2010.000000" "$three|0|0|0|0|0|0|0|0|-|-"
tells 'churn --since 2002 --until 2010 --prefix 198.51.100.0/24' "$one|0|1|1|0|0|0|0|0|2002.000000|2010.000000" \
  "$two|0|1|0|0|0|0|0|0|2010.000000|2010.000000" "$three|2|0|0|1|1|0|0|0|2002.000000|2003.000000"

# --rib: dumps one behind the other, of an index of four peers, which aren't in the order in which their tables are
# cleared: d, c, b and a. The first dump has 10.0.0.0/8 at all and 192.0.2.0/24 at b and a; then e, which is in no index,
# announces 203.0.113.0/24, and a 10.0.0.0/9. In the second dump b has another path to 10.0.0.0/8, and a no 192.0.2.0/24.
a='65001 9.0.0.1' b='65001 192.0.2.1' c='65001 0000:0000:0000:0000:0000:0000:0000:0001' d='4200000003 192.0.2.4' e='65003 192.0.2.5'
written() { # SECOND TYPE SUBTYPE BODY
  local body=${4//[[:space:]]/}; printf "$(printf '%08x%04x%04x%08x%s' "$1" "$2" "$3" $((${#body} / 2)) "$body" | sed 's/../\\x&/g')"
}
indexed() { # SECOND: the index table
  written "$1" 13 1 'c0000263 0000 0004 02 c0000204 c0000204 fa56ea03 03 c0000203 00000000000000000000000000000001 0000fde9
    02 c0000202 c0000201 0000fde9 02 c0000201 09000001 0000fde9'
}
path() { printf '400101004002060201%08x400304c0000201' "$1"; } # AS
dumped() { # SECOND PREFIX PEER:AS..: a RIB record; with path identifiers where they stand behind the AS, as PEER:AS:ID
  local second=$1 prefix=$2 subtype=2 body= entry peer asn id; shift 2
  for entry; do
    IFS=: read -r peer asn id <<< "$entry"; body+=$(printf '%04x00000000' "$peer")
    if [ -n "$id" ]; then subtype=8; body+=$(printf '%08x' "$id"); fi
    body+=0014$(path "$asn")
  done
  written "$second" 13 $subtype "00000000 $prefix $(printf %04x $#) $body"
}
session_of() { # PEER
  case $1 in
    a) echo 0000fde90000fa010000000109000001c00002fe;; b) echo 0000fde90000fa0100000001c0000201c00002fe;;
    c) printf '0000fde90000fa0100000002%032x%032x' 1 2;; e) echo 0000fdeb0000fa0100000001c0000205c00002fe;;
  esac
}
announced() { # SECOND PEER PREFIX AS: an UPDATE
  local text="0200000014$(path "$4")$3"
  written "$1" 16 4 "$(session_of "$2")ffffffffffffffffffffffffffffffff$(printf %04x $((18 + ${#text} / 2)))$text"
}
moved() { written "$1" 16 5 "$(session_of "$2")$(printf '%04x%04x' "$3" "$4")"; } # SECOND PEER OLD NEW: a state change
eight=080a nine=090a00 doc=18c00002 test_net=18cb0071
{ indexed 1000; dumped 1000 $eight 0:64500 1:64501 2:64502 3:64503; dumped 1000 $doc 2:64512 3:64513; announced 1010 e $test_net 64520; announced 1020 a $nine 64530; } > dump1
{ indexed 2000; dumped 2001 $eight 0:64500 1:64501 2:64599 3:64503; dumped 2002 $doc 2:64512; } > dump2
cat dump1 dump2 > dumps
route() { echo "$1|$2|$3|192.0.2.1|IGP|-|-|-|-"; } # PEER PREFIX AS
at() { echo "$1.000000|$2|$3|$4|$5|$6|192.0.2.1|IGP|-|-|-|-"; } # SECOND PEER WHAT BY PREFIX AS
# What --rib replace gives, by one worker and by three; with BAD damaged records.
clears() { # FILES WORDS LINE..
  local files=$1 words=$2 workers status=0 line=; shift 2
  [ -z "${BAD:-}" ] || { status=1; line="damaged: $BAD"; }
  if [ $# = 0 ]; then : > wanted; else printf '%s\n' "$@" > wanted; fi
  for workers in 1 3; do try $status "$line" wanted $words --rib replace --workers $workers $files; done
}
first_dump=("$(at 1000 "$d" new rib 10.0.0.0/8 64500)" "$(at 1000 "$c" new rib 10.0.0.0/8 64501)" "$(at 1000 "$b" new rib 10.0.0.0/8 64502)" "$(at 1000 "$a" new rib 10.0.0.0/8 64503)"
  "$(at 1000 "$b" new rib 192.0.2.0/24 64512)" "$(at 1000 "$a" new rib 192.0.2.0/24 64513)" "$(at 1010 "$e" new update 203.0.113.0/24 64520)" "$(at 1020 "$a" new update 10.0.0.0/9 64530)")
all_lost() { # SECOND: what a dump takes at this second from the tables that dump1 leaves
  at "$1" "$a" lost rib 10.0.0.0/8 64503; at "$1" "$a" lost rib 10.0.0.0/9 64530; at "$1" "$a" lost rib 192.0.2.0/24 64513
  at "$1" "$b" lost rib 10.0.0.0/8 64502; at "$1" "$b" lost rib 192.0.2.0/24 64512; at "$1" "$c" lost rib 10.0.0.0/8 64501
  at "$1" "$e" lost rib 203.0.113.0/24 64520; at "$1" "$d" lost rib 10.0.0.0/8 64500
}
second_dump=("$(at 2001 "$d" new rib 10.0.0.0/8 64500)" "$(at 2001 "$c" new rib 10.0.0.0/8 64501)" "$(at 2001 "$b" new rib 10.0.0.0/8 64599)" "$(at 2001 "$a" new rib 10.0.0.0/8 64503)" "$(at 2002 "$b" new rib 192.0.2.0/24 64512)")
mapfile -t lost < <(all_lost 2001)
of_dump1=("$(route "$d" 10.0.0.0/8 64500)" "$(route "$c" 10.0.0.0/8 64501)" "$(route "$b" 10.0.0.0/8 64502)" "$(route "$b" 192.0.2.0/24 64512)"
  "$(route "$a" 10.0.0.0/8 64503)" "$(route "$a" 10.0.0.0/9 64530)" "$(route "$a" 192.0.2.0/24 64513)" "$(route "$e" 203.0.113.0/24 64520)")
of_dump2=("$(route "$d" 10.0.0.0/8 64500)" "$(route "$c" 10.0.0.0/8 64501)" "$(route "$b" 10.0.0.0/8 64599)" "$(route "$b" 192.0.2.0/24 64512)" "$(route "$a" 10.0.0.0/8 64503)")
# one file and two, without and with the option
added=("${of_dump1[@]}"); added[2]=${of_dump2[2]}; printf '%s\n' "${added[@]}" > added
for files in dumps 'dump1 dump2'; do
  for words in '' '--rib add' '--rib replace --rib add' '--rib=add --workers 1'; do try 0 '' added tables $words $files; done
  clears "$files" tables "${of_dump2[@]}"
  clears "$files" history "${first_dump[@]}" "${lost[@]}" "${second_dump[@]}"
  clears "$files" churn "$d|2|0|0|0|0|0|0|0|1000.000000|2001.000000" "$c|2|0|0|0|0|0|0|0|1000.000000|2001.000000" "$b|4|0|0|0|0|0|0|0|1000.000000|2002.000000" \
    "$a|4|0|0|0|0|0|0|0|1000.000000|2001.000000" "$e|1|0|0|0|0|0|0|0|1010.000000|1010.000000"
  clears "$files" peers "$d|up|1|2|1000.000000|2001.000000|1|84|1" "$c|up|1|2|1000.000000|2001.000000|1|84|2" "$b|up|2|4|1000.000000|2002.000000|1|84|3" \
    "$a|up|1|4|1000.000000|2001.000000|1|84|4" "$e|up|0|1|1010.000000|1010.000000|1|294|-"
  clears "$files" visibility '10.0.0.0/8|4' '192.0.2.0/24|1'
  clears "$files" seen '10.0.0.0/8|64500|1' '10.0.0.0/8|64501|1' '10.0.0.0/8|64503|1' '10.0.0.0/8|64599|1' '192.0.2.0/24|64512|1'
  clears "$files" 'match --address 192.0.2.7' "${of_dump2[3]}"
  clears "$files" faults
done
printf '%s\n' "$d|1|0|1|0|0|0|0|0|1000.000000|2001.000000" "$c|1|0|1|0|0|0|0|0|1000.000000|2001.000000" "$b|2|1|1|0|0|0|0|0|1000.000000|2002.000000" \
  "$a|3|0|1|0|0|0|0|0|1000.000000|2001.000000" "$e|1|0|0|0|0|0|0|0|1010.000000|1010.000000" > wanted
for words in '' '--rib add'; do try 0 '' wanted churn $words dumps; done
for report in tables visibility origins seen churn peers faults history 'history --same' 'churn --since 2001' 'match --address 192.0.2.7' 'tables --prefix 203.0.113.0/24'; do
  ./bgp_replay $report dumps > default 2> said; try 0 '' default $report --rib add dumps
done
# the same dump twice: nothing has gone
{ head -c 294 dump1; head -c 294 dump1; } > same_dump
clears same_dump tables "${of_dump1[@]:0:5}" "${of_dump1[6]}"
clears same_dump churn "$d|2|0|0|0|0|0|0|0|1000.000000|1000.000000" "$c|2|0|0|0|0|0|0|0|1000.000000|1000.000000" "$b|4|0|0|0|0|0|0|0|1000.000000|1000.000000" "$a|4|0|0|0|0|0|0|0|1000.000000|1000.000000"
# a prefix of which the second dump has no record, peers and shares, seconds
clears dumps 'tables --prefix 203.0.113.0/24'
clears dumps 'history --prefix 203.0.113.0/24' "${first_dump[6]}" "${lost[6]}"
clears dumps 'churn --prefix 203.0.113.0/24' "$e|1|0|0|0|0|0|0|0|1010.000000|1010.000000"
clears dumps 'peers --prefix 203.0.113.0/24' "$e|up|0|1|1010.000000|1010.000000|1|294|-"
clears dumps 'tables --prefix 10.0.0.0/8+' "${of_dump2[@]:0:3}" "${of_dump2[4]}"
clears dumps 'history --prefix 192.0.2.0/24' "${first_dump[@]:4:2}" "${lost[2]}" "${lost[4]}" "${second_dump[4]}"
clears dumps 'churn --prefix 192.0.2.0/24' "$b|2|0|0|0|0|0|0|0|1000.000000|2002.000000" "$a|1|0|0|0|0|0|0|0|1000.000000|1000.000000"
clears dumps 'history --peer 65003' "${first_dump[6]}" "${lost[6]}"
clears dumps 'tables --peer 65003'
clears dumps 'peers --peer 65003 --peer 4200000003' "$d|up|1|2|1000.000000|2001.000000|1|84|1" "$e|up|0|1|1010.000000|1010.000000|1|294|-"
clears dumps 'history --since 2001' "${lost[@]}" "${second_dump[@]}"
clears dumps 'history --since 2002' "${second_dump[4]}"
clears dumps 'history --until 2001' "${first_dump[@]}" "${lost[@]}" "${second_dump[@]:0:4}"
clears dumps 'churn --since 2001' "$d|1|0|0|0|0|0|0|0|2001.000000|2001.000000" "$c|1|0|0|0|0|0|0|0|2001.000000|2001.000000" "$b|2|0|0|0|0|0|0|0|2001.000000|2002.000000" \
  "$a|1|0|0|0|0|0|0|0|2001.000000|2001.000000" "$e|0|0|0|0|0|0|0|0|-|-"
clears dumps 'tables --until 2001' "${of_dump2[@]:0:3}" "${of_dump2[4]}"
# past the last second nothing begins, and a later record of the dump that isn't past it does
clears dumps 'tables --until 2000' "${of_dump1[@]}"
clears dumps 'history --until 2000' "${first_dump[@]}"
{ indexed 2400; dumped 3000 $eight 3:64503; dumped 2500 $doc 2:64512; dumped 2600 $eight 2:64502; } > late
mapfile -t lost_late < <(all_lost 2500)
clears 'dump1 late' 'tables --until 2999' "${of_dump1[@]:2:2}"
clears 'dump1 late' 'history --until 2999' "${first_dump[@]}" "${lost_late[@]}" "$(at 2500 "$b" new rib 192.0.2.0/24 64512)" "$(at 2600 "$b" new rib 10.0.0.0/8 64502)"
# index tables alone begin nothing, and neither do records of IPv6 routes; the last table counts
{ indexed 2000; indexed 2001; written 2002 13 4 '00000000 20 20010db8 0000'; } > bare
clears 'dump1 bare' tables "${of_dump1[@]}"
clears 'dump1 bare' history "${first_dump[@]}"
{ cat bare; dumped 2003 $eight 3:64503; dumped 2004 $nine 3:64530; indexed 2005; } > tables_first
mapfile -t lost_then < <(all_lost 2003)
clears 'dump1 tables_first' tables "${of_dump1[@]:4:2}"
clears 'dump1 tables_first' history "${first_dump[@]}" "${lost_then[@]}" "$(at 2003 "$a" new rib 10.0.0.0/8 64503)" "$(at 2004 "$a" new rib 10.0.0.0/9 64530)"
# three dumps in a file: the third one clears what was heard since the second
{ cat dump1; indexed 2000; dumped 2001 $eight 3:64503; indexed 2002; dumped 2003 $doc 3:64513; } > three_dumps
clears three_dumps tables "${of_dump1[6]}"
clears three_dumps 'history --since 2001' "${lost[@]}" "$(at 2001 "$a" new rib 10.0.0.0/8 64503)" "$(at 2003 "$a" lost rib 10.0.0.0/8 64503)" "$(at 2003 "$a" new rib 192.0.2.0/24 64513)"
# messages between the index table and its first record, and before the first dump, are cleared as well
{ announced 900 a $nine 64530; indexed 1000; announced 1001 c $test_net 64520; dumped 1002 $eight 2:64502; announced 1003 a $nine 64531; } > between
clears between tables "$(route "$a" 10.0.0.0/9 64531)" "$(route "$b" 10.0.0.0/8 64502)"
clears between history "$(at 900 "$a" new update 10.0.0.0/9 64530)" "$(at 1001 "$c" new update 203.0.113.0/24 64520)" "$(at 1002 "$a" lost rib 10.0.0.0/9 64530)" \
  "$(at 1002 "$c" lost rib 203.0.113.0/24 64520)" "$(at 1002 "$b" new rib 10.0.0.0/8 64502)" "$(at 1003 "$a" new update 10.0.0.0/9 64531)"
# path identifiers, a record without an entry, one with a damaged entry
{ indexed 2000; dumped 2001 $eight 3:64503:7 3:64504:9; } > paths
clears 'dump1 paths' tables "$(route "$a" 10.0.0.0/8#7 64503)" "$(route "$a" 10.0.0.0/8#9 64504)"
clears 'dump1 paths paths' 'history --since 2001' "${lost[@]}" "$(at 2001 "$a" new rib 10.0.0.0/8#7 64503)" "$(at 2001 "$a" new rib 10.0.0.0/8#9 64504)" \
  "$(at 2001 "$a" lost rib 10.0.0.0/8#7 64503)" "$(at 2001 "$a" lost rib 10.0.0.0/8#9 64504)" "$(at 2001 "$a" new rib 10.0.0.0/8#7 64503)" "$(at 2001 "$a" new rib 10.0.0.0/8#9 64504)"
{ indexed 2000; dumped 2001 $eight; } > no_entry
clears 'dump1 no_entry' tables
clears 'dump1 no_entry' 'history --since 1021' "${lost[@]}"
{ indexed 2000; written 2001 13 2 "00000000 $eight 0001 0003 00000000 0004 40010103"; } > bad_entry
BAD=1 clears 'dump1 bad_entry' 'history --since 1021' "${lost[@]}"
BAD=1 clears 'dump1 bad_entry' 'churn --peer 65001,9.0.0.1' "$a|3|0|0|0|0|0|0|1|1000.000000|2001.000000"
# a refused record begins nothing, and the next one does; no index table in force; a damaged one
{ indexed 2000; dumped 2000 $eight 9:64500; } > refused_first; { cat refused_first; dumped 2001 $eight 3:64503; } > refused_then
BAD=1 clears 'dump1 refused_first' tables "${of_dump1[@]}"
BAD=1 clears 'dump1 refused_then' tables "${of_dump1[4]}"
BAD=1 clears 'dump1 refused_then' 'history --since 1021' "${lost[@]}" "$(at 2001 "$a" new rib 10.0.0.0/8 64503)"
dumped 2001 $eight 3:64503 > no_index; { written 2000 13 1 'c0000263 0000 0001'; dumped 2001 $eight 3:64503; } > bad_index
BAD=1 clears 'dump1 no_index' tables "${of_dump1[@]}"
BAD=2 clears 'dump1 bad_index' tables "${of_dump1[@]}"
BAD=2 clears 'bad_index dumps' tables "${of_dump2[@]}"
# who is up stays so: b, whose session ended, takes no entry, and by the other rule it takes them
{ cat dump1; moved 1030 b 6 1; cat dump2; } > down
clears down tables "${of_dump2[@]:0:2}" "${of_dump2[4]}"
clears down 'churn --peer 65001,192.0.2.1' "$b|2|0|0|0|0|1|2|0|1000.000000|2002.000000"
clears down 'peers --peer 65001,192.0.2.1' "$b|down|0|5|1000.000000|2002.000000|1|84|3"
clears down 'history --peer 65001,192.0.2.1' "${first_dump[2]}" "${first_dump[4]}" "$(at 1030 "$b" lost state 10.0.0.0/8 64502)" "$(at 1030 "$b" lost state 192.0.2.0/24 64512)"
clears down 'peers --peer 65001,192.0.2.1 --states established' "$b|down|2|5|1000.000000|2002.000000|1|84|3"
clears down 'churn --peer 65001,192.0.2.1 --states established' "$b|4|0|0|0|0|1|0|0|1000.000000|2002.000000"
{ cat down; moved 2010 b 1 6; announced 2011 b $nine 64531; indexed 2020; dumped 2021 $eight 2:64502; } > up_again
clears up_again tables "${of_dump1[2]}"
clears up_again 'churn --peer 65001,192.0.2.1' "$b|4|0|0|0|0|2|2|0|1000.000000|2021.000000"
clears up_again 'history --peer 65001,192.0.2.1 --since 1031' "$(at 2011 "$b" new update 10.0.0.0/9 64531)" "$(at 2021 "$b" lost rib 10.0.0.0/9 64531)" "$(at 2021 "$b" new rib 10.0.0.0/8 64502)"
for text in other '' Replace 'add,replace' 'replace '; do try 2 "error: invalid value '$text' for '--rib <RULE>': neither add nor replace" nothing tables --rib "$text" dumps; done

# --prefixes: lines that are passed over, blanks at the ends of others, and files that add up
printf '# both\r\n\n198.51.100.0/24 \t\r\n  \n203.0.113.128/25-' > one.txt; printf '198.51.100.0/25\n' > two.txt; printf '#\n' > none.txt
lists 'tables --prefixes one.txt --until 1009' "$one_24" "$one_203" "$two_24"
lists 'tables --prefixes one.txt --until 1030' "$one_203" "$two_24" "$two_203"
lists 'tables --prefixes two.txt --until 1030' "$two_25"
lists 'tables --prefixes two.txt --prefixes one.txt --until 1030' "$one_203" "$two_24" "$two_25" "$two_203"
lists 'tables --prefixes two.txt --prefix 198.51.100.0/24 --until 1030' "$two_24" "$two_25"
for words in '--prefixes -' '--prefixes=-'; do printf '%s\n' "$two_25" > wanted; INPUT=two.txt try 0 '' wanted tables $words --until 1030 eight; done
INPUT=eight try 2 "error: standard input can't be both the prefixes and a dump" nothing tables --prefixes - -
try 2 "error: '--prefixes none.txt' names no prefix" nothing tables --prefixes none.txt eight
try 2 "error: '--prefixes standard input' names no prefix" nothing tables --prefixes - eight
try 2 "error: '--prefixes standard input' names no prefix" nothing tables --prefixes two.txt --prefixes - missing
bad_line() { # LINE SHOWN WHY
  printf '198.51.100.0/25\n#\n%b\nsoon\n' "$1" > bad.txt; try 2 "error: invalid line 3 '$2' in '--prefixes bad.txt': $3" nothing tables --prefixes two.txt --prefixes bad.txt eight
}
bad_line '192.0.2.1/24' '192.0.2.1/24' 'its address has bits past its length'
bad_line '192.0.2.0/33+ ' '192.0.2.0/33+' 'its length is not a number of 0 to 32'
bad_line ' 192.0.2.0/24' ' 192.0.2.0/24' "no IPv4 address stands before its '/'"
bad_line ' # ours' ' # ours' 'it is no IPv4 address'
bad_line '192.0.2.0 192.0.2.1' '192.0.2.0 192.0.2.1' 'it is no IPv4 address'
bad_line '\0377' '\xff' 'it is no IPv4 address'
bad_line '192.0.2.0/24\r#' '192.0.2.0/24\r#' 'its length is not a number of 0 to 32'
bad_line '192.0.2.9 # ours' '192.0.2.9 # ours' 'it is no IPv4 address'
bad_line '192.0.2.9\r192.0.2.8' '192.0.2.9\r192.0.2.8' 'it is no IPv4 address'
told_list() { # TEXT FAMILY LINE SHOWN WHY [LIKE]: which line of a text is refused first, and all that is said of it
  local example=192.0.2.0/24; [ $2 = ipv4 ] || example=2001:db8::/32
  printf "$1" > list
  told "error: invalid line $3 '$4' in '--prefixes list': $5"$'\n'"$(may_be $example); a line that begins with # is passed over${6:+$'\n'$6}" \
    tables --family $2 --prefixes list eight
}
told_list 'soon' ipv4 1 soon 'it is no IPv4 address'
told_list '192.0.2.9\n#\n\n\n-' ipv4 5 - 'it is no IPv4 address'
told_list '192.0.2.9\n\n192.0.2.9/31\n192.0.2.9/33\n' ipv4 3 192.0.2.9/31 'its address has bits past its length'
told_list '::1\n10.0.0.0/8\n' ipv4 1 ::1 'it is no IPv4 address' "$(like 6 address)"
told_list '::1\n10.0.0.0/8\n' ipv6 2 10.0.0.0/8 "no IPv6 address stands before its '/'" "$(like 4 prefix)"
told_list '::9\n\n192.0.2.0/24\n::9/127\n' ipv6 3 192.0.2.0/24 "no IPv6 address stands before its '/'" "$(like 4 prefix)"
told_list '::9/127\n' ipv6 1 ::9/127 'its address has bits past its length'
told_list '::9\n::9/129\n' ipv6 2 ::9/129 'its length is not a number of 0 to 128'
for text in '' '\n\n' '\r\n \t\n#\n'; do printf "$text" > list; told "error: '--prefixes ./list' names no prefix" tables --prefixes ./list eight; done
printf '198.51.100.0/25\r\n\r\n203.0.113.0/24+\r\n' > list; lists 'tables --prefixes list --until 1030' "$one_203" "$two_25" "$two_203"
lists 'tables --prefixes list --prefix 198.51.100.0/24 --prefixes list --until 1030' "$one_203" "$two_24" "$two_25" "$two_203"
try 3 'open failed: prefixes 2' nothing tables --prefixes two.txt --prefixes missing eight
try 3 'read failed: prefixes 1' nothing tables --prefixes . eight
for words in 'tables --prefixes' 'tables --prefixes two.txt'; do try 2 '?' nothing $words; done
tip "  tip: '--since' is an option of churn, history" tables --since 5 eight
tip "  tip: '--path' is an option of tables, visibility, origins, seen, churn, peers, match, history" faults --path '*' eight
lists 'churn --prefixes two.txt' '65002 192.0.2.2|1|0|0|0|0|1|0|0|1010.000000|1040.000000'
lists 'tables --until 1970-01-01T00:17:10Z --prefix 198.51.100.0/24' "$two_24"
lists 'tables --until 1970-01-02 --prefix 203.0.113.0/24' "$one_203"

# --files-from: names by line and by NUL byte, behind those of the arguments
printf 'eight\n\nempty' > dumps.txt; printf 'empty\0eight\0' > dumps.nul; printf '\n\n' > none.txt; printf 'eight\n\n\377\n' > bad.txt
./bgp_replay churn eight > whole-eight 2> said; ./bgp_replay churn eight eight > whole-twice 2> said
for words in '--files-from dumps.txt' '--files-from dumps.nul' 'empty --files-from dumps.txt' '--files-from=dumps.txt empty'; do try 0 '' whole-eight churn $words; done
try 0 '' whole-twice churn --files-from dumps.txt --files-from dumps.nul
try 0 '' whole-twice churn --files-from dumps.nul eight
INPUT=dumps.nul try 0 '' whole-eight churn --files-from -
printf 'two words\0line\nfeed\0' > odd.nul; cp eight 'two words'; cp eight $'line\nfeed'; try 0 '' whole-twice churn --files-from odd.nul
printf '%s\n' - > stdin.txt; INPUT=eight try 0 '' whole-eight churn --files-from stdin.txt
INPUT=dumps.txt try 2 "error: standard input can't be both the names of files and a dump" nothing tables --files-from - -
INPUT=stdin.txt try 2 "error: standard input can't be both the names of files and a dump" nothing tables --files-from -
try 2 "error: standard input can't be both the names of files and the prefixes" nothing tables --files-from - --prefixes - eight
try 2 "error: '--files-from none.txt' names no file" nothing tables --files-from none.txt
try 2 "error: '--files-from standard input' names no file" nothing tables eight --files-from -
try 2 "error: name 3 '\\xff' in '--files-from bad.txt' is not UTF-8 text" nothing tables --files-from bad.txt
try 3 'open failed: files-from 2' nothing tables --files-from dumps.txt --files-from missing
try 3 'read failed: files-from 1' nothing tables --files-from .
printf 'eight\nmissing\n' > missing.txt; try 3 'open failed: file 3' nothing tables --files-from missing.txt eight
try 2 '?' nothing tables --files-from
# what is part of a name: blanks, carriage returns, line feeds where NUL bytes end names, and nothing at all
listed() { printf "$2" > "$1"; } # NAME TEXT
for name in $'a b \r' $'\tc' $'a\nb' c $'\n'; do cp eight "$name"; done
listed blanks '\na b \r\n\n\tc'; try 0 '' whole-twice churn --files-from blanks
listed feeds 'a\nb\0c'; try 0 '' whole-twice churn --files-from feeds
listed feed '\n\0'; try 0 '' whole-eight churn --files-from feed
listed end '\0'; try 3 'open failed: file 1' nothing tables --files-from end
listed gap 'a\nb\0\0c'; try 3 'open failed: file 2' nothing tables --files-from gap
listed feed '\n'; told "error: '--files-from feed' names no file" tables --files-from feed
listed end 'c\0\303\0'; try 2 "error: name 2 '\\xc3' in '--files-from end' is not UTF-8 text" nothing tables --files-from end
listed 'my list' 'a\n\nb\377\nc\n\376'
told $'error: name 3 \'b\\xff\' in \'--files-from "my list"\' is not UTF-8 text\n  give such a file by a symbolic link with another name' tables --files-from 'my list'
# any number of files, however few may be open
for ((i = 0; i < 2000; i++)); do echo empty; echo eight; done > many.txt
mapfile -t many < many.txt; ./bgp_replay churn "${many[@]}" > whole-many 2> said
for open in 64 8; do
  (ulimit -n $open; ./bgp_replay churn --files-from many.txt > out 2> said); judge "4,000 files of a list with $open descriptors" 0 '' whole-many $?
done
# a file is closed when the next one is begun, though its end wasn't read: whoever writes it is told, and goes on
mkfifo first second
timeout 60 bash -c 'exec 6> first 7> second; { printf "\0\0\0\1\0\15\0\1\377\377\377\377"; yes; } >&6 7>&-; echo $? > ended; exec 6>&-; cat eight >&7' 2> none & writer=$!
timeout 60 ./bgp_replay churn first second > out 2> said; judge 'a pipe that is left' 1 'damaged: 1' whole-eight $?
wait $writer; if [ "$(cat ended)" = 141 ]; then right; else wrong "who writes a pipe that is left ends with $(cat ended)"; fi

# what isn't MRT is named
printf 'PK\3\4\24\0\0\0\10\0 and so on' > packed.zip; printf '\375\067zXZ\0\0\4' > packed.xz; printf 'TABLE_DUMP2|1|B|\n' > lines.txt
try 1 'damaged: 1' nothing tables packed.zip; [ "$(tail -n +2 said | grep -v "^  note: ")" = '  packed.zip: looks like zip data; try: bgp_replay tables <(unzip -p packed.zip)' ] && right || wrong "zip data: $(tail -n +2 said)"
INPUT=packed.zip try 1 'damaged: 1' something faults -; [ "$(tail -n +2 said | grep -v "^  note: ")" = '  standard input: looks like zip data; try: unzip -p FILE | bgp_replay faults -' ] && right || wrong "zip data: $(tail -n +2 said)"
try 1 'damaged: 1' nothing tables packed.xz; [ "$(tail -n +2 said | grep -v "^  note: ")" = '  packed.xz: looks like xz data; try: bgp_replay tables <(xzcat packed.xz)' ] && right || wrong "xz data: $(tail -n +2 said)"
try 1 'damaged: 1' nothing tables lines.txt; [ "$(tail -n +2 said | grep -v "^  note: ")" = '  lines.txt: looks like text, and not like an MRT dump' ] && right || wrong "text: $(tail -n +2 said)"
looks() { # BYTES LINE: what is said of a file of these bytes, or nothing
  printf "$1" > likeness; try 1 'damaged: 1' nothing tables likeness
  if [ "$(tail -n +2 said | grep -v '^  note: ')" = "${2:+  likeness: looks like $2}" ]; then right; else wrong "of $1 is said: $(tail -n +2 said)"; fi
}
looks '\375\067zXZ\0\0\4' 'xz data; try: bgp_replay tables <(xzcat likeness)'
looks '\050\265\057\375\004\130' 'zstd data; try: bgp_replay tables <(zstdcat likeness)'
looks 'PK\3\4\24\0\0\0' 'zip data; try: bgp_replay tables <(unzip -p likeness)'
looks 'PK\5\6\0\0\0\0' ''
looks '\324\303\262\241\2\0\4\0' 'a packet capture, and not like an MRT dump'
looks '\n\r\r\n\034\0\0\0' 'a packet capture, and not like an MRT dump'
looks 'TABLE_DUMP2|1|B|' 'text, and not like an MRT dump'
looks '\0\0\0\1\0\20\0\4' ''
try 0 '' nothing tables empty; [ "$(cat said)" = '  note: files without a whole record: empty' ] && right || wrong "of an empty file is said: $(cat said)"

# --summary: lines of a key and a value
summary() { ./bgp_replay "$@" --summary > out 2> said < "${INPUT:-/dev/null}"; }
value() { sed -n "s/^$1: //p" said; } # of a key
values() { local key value; for key in "$@"; do value=$(value "$key"); printf '%s ' "${value:-none}"; done; }
holds() { if [ "$2" = "$3" ]; then right; else wrong "$1: $2 in place of $3"; fi; } # NAME HAS WANTED
total() { sed -n "s/^file [0-9]* $1: //p" said | awk '{ sum += $1 } END { print sum + 0 }'; } # of a key of all files
# Follows the headers of a dump, and prints the whole records, those that aren't interpreted, the bytes behind the last whole one, and the first and the last second.
count_records() { od -An -v -tu1 -w1 "$1" | awk -v size="$(stat -Lc %s "$1")" '
  left > 0 { left--; if (!left) whole(); next }
  { header[filled++] = $1 }
  filled == 12 { filled = 0; length_ = number(8, 4); if (length_ > 16777216) { exit } if (length_) left = length_; else whole() }
  function number(at, count,   i, n) { for (i = 0; i < count; i++) n = n * 256 + header[at + i]; return n }
  function whole(   type, subtype) {
    records++; bytes += 12 + number(8, 4); last = number(0, 4); if (records == 1) first = last
    type = number(4, 2); subtype = number(6, 2)
    if (!(type == 13 && subtype ~ /^[128]$/) && !((type == 16 || type == 17) && subtype ~ /^[014589]$/)) aside++
  }
  END { printf "%d %d %d %s %s ", records, aside, size - bytes, records ? first : "-", records ? last : "-" }'; }
record() { printf '\0\0\0\7\0%b\0%b\0\0\0%b' "$1" "$2" "$3"; head -c "$4" /dev/zero; } # type, subtype and length as escapes, and the length
{ record '\015' '\004' '\005' 5; record '\015' '\004' '\0' 0; record '\020' '\006' '\1' 1; record '\143' '\003' '\0' 0; cat sample; record '\014' '\001' '\002' 2; record '\143' '\003' '\0' 0; } > several
{ cat several; printf '\0\0\0\1\0\15\0\2\1\0\0\1rest of the file'; } > long
for file in empty stump 'cut' sample several long "$here"/../examples/*.mrt ${SAMPLES:+"$SAMPLES"/*}; do
  [ -f "$file" ] || continue
  summary churn "$file"; name="--summary of ${file##*/}"
  holds "$name" "$(values 'file 1 records' 'file 1 aside' 'file 1 unread' 'file 1 first' 'file 1 last')" "$(count_records "$file")"
  holds "$name: sums" "$(values records aside)" "$(total records) $(total aside) "
  holds "$name: kinds" "$(total aside)" "$(total 'aside .*')"
  holds "$name: bytes" "$(value bytes)" "$(total bytes)"
done
{ head -c 40 "$here"/../examples/updates.mrt; printf '\0'; tail -c +42 "$here"/../examples/updates.mrt; } > marred # a byte of a marker
files=(sample marred 'cut' sample); summary churn "${files[@]}"; ./bgp_replay faults "${files[@]}" > listed 2> none
holds '--summary: units by file' "$(total units) $(value 'file 1 units') $(value 'file 4 units')" "$(value units) $(./bgp_replay churn sample --summary 2>&1 > none | sed -n 's/^units: \(.*\)/\1 \1/p')"
holds '--summary: faults by file' "$(for i in 1 2 3 4; do echo $(($(value "file $i refused") + $(value "file $i damaged"))); done)" "$(for i in 1 2 3 4; do grep -c "^$i|" listed; done)"
holds '--summary: damaged units and refused records' "$(values 'file 2 refused' 'file 2 damaged' 'file 3 refused' 'file 3 damaged')" '0 2 1 0 '
summary churn several
holds '--summary: keys' "$(grep -cvE '^(damaged|(file [0-9]+)( (bytes|unread|records|aside|first|last|aside [A-Za-z0-9_]+ [A-Za-z0-9_]+|aside others|units|refused|damaged))?|files|bytes|records|units|aside|peers|routes|rounds|workers|seconds|peak_kib): .' said)" 0
holds '--summary: routes' "$(value routes)" "$(./bgp_replay tables several | wc -l)"
holds '--summary: kinds by their names' "$(grep '^file 1 aside .*:' said)" "$(printf 'file 1 aside %s\n' 'TABLE_DUMP_V2 RIB_IPV6_UNICAST: 2' 'BGP4MP BGP4MP_MESSAGE_LOCAL: 1' '99 3: 2' 'TABLE_DUMP AFI_IPv4: 1')"
holds '--summary: the replay is the same' "$(cksum < out)" "$(./bgp_replay churn several | cksum)"
for i in {1..70}; do record '\040' "\\0$(printf %o $i)" '\0' 0; done > kinds; summary churn kinds
holds '--summary: 64 kinds at most' "$(value 'file 1 aside') $(grep -c '^file 1 aside ISIS [0-9]*: 1$' said) $(value 'file 1 aside others')" '70 64 6'
summary tables dumps; holds '--summary: units of two dumps' "$(values units 'file 1 units')" '13 13 '
summary tables --rib replace dumps; holds '--summary: units, one more for each table that is cleared' "$(values units 'file 1 units')" '18 18 '
summary tables --rib replace dump1 dump2; holds '--summary: what is cleared is of the file that does it' "$(values units 'file 1 units' 'file 2 units')" '18 8 10 '
summary tables --rib replace three_dumps; holds '--summary: tables are cleared that had a unit since the last dump' "$(values units)" '16 '
summary churn sample stump 'cut' - < /dev/null
holds '--summary of four files' "$(value 'file [1-4]' | tr '\n' ' ')$(value files) $(value damaged) $(value 'file 2 unread') $(value 'file 4 first')" 'sample stump cut standard input 4 2 5 -'
holds '--summary: first the damage' "$(head -n 1 said)" 'damaged: 2'
summary tables sample --workers 3; holds '--summary: workers' "$(value workers)" 3
summary tables sample; if [[ $(value workers) -ge 1 && $(value workers) -le 64 && $(value workers) -le $(nproc --all) ]]; then right; else wrong "--summary: $(value workers) workers"; fi
if taskset -c 0 true 2> none; then taskset -c 0 ./bgp_replay tables sample --summary > out 2> said; holds 'workers on one processor' "$(value workers)" 1; fi
if [ -r /proc/self/status ]; then [[ $(value peak_kib) -gt 100 ]] && right || wrong "--summary: $(value peak_kib) KiB"; fi
INPUT=long summary faults -
holds '--summary of a stream that ends in a body too long' "$(values 'file 1 records' 'file 1 unread')" "$(count_records long | cut -d ' ' -f 1) - "
cat 'cut' | INPUT=/dev/stdin summary faults -; holds '--summary of a pipe' "$(values 'file 1 bytes' 'file 1 unread')" '1000 108 '
summary churn $'./two\nlines'; holds '--summary of a name of two lines' "$(value 'file 1')" '"./two\nlines"'
summary tables sample folder; holds '--summary after a failed read' "$(head -n 1 said) $(values 'file 1 records' 'file 2 records' records)" "read failed: file 2 $(count_records sample | cut -d ' ' -f 1) 0 none "

# --progress: a line that is rewritten
slowly() { head -c 3000000 large; sleep 0.6; tail -c +3000001 large | head -c 3000000; sleep 0.6; tail -c +6000001 large; }
start=${EPOCHREALTIME//[!0-9]/}; slowly | ./bgp_replay churn --quiet --progress - > out 2> said; status=$?; micros=$((${EPOCHREALTIME//[!0-9]/} - start))
holds '--progress: its last line is cleared' "$(tail -c 1 said | od -An -tx1)" ' 0d'
tr '\r' '\n' < said > lines
if grep -qE '^[0-9]+ MB, standard input \(1 of 1\), [0-9]+ MB/s, 0 routes *$' lines; then right; else wrong "--progress: $(head -n 2 lines | tail -n 1)"; fi
[ "$(grep -c 'MB/s' lines)" -le $((micros / 250000 + 1)) ] && right || wrong "--progress: $(grep -c 'MB/s' lines) lines in $micros microseconds"
holds '--progress: blanks at last' "$(tail -n 1 lines | tr -d ' ')" ''
tr -d '\r' < lines > said; grep -vE '^[0-9]+ MB, standard input \(1 of 1\), [0-9]+ MB/s, [0-9]+ routes *$|^ *$' said > others; : > said; judge '--progress' 0 '' nothing $status
holds '--progress: nothing else' "$(wc -c < others)" 0
[ "$(widest < lines)" -lt 80 ] && right || wrong "--progress: a line of $(widest < lines) columns"
for width in 30 12; do
  slowly | COLUMNS=$width ./bgp_replay churn --quiet --progress - 2>&1 > out | tr '\r' '\n' > lines
  most=$(widest < lines); [ "$most" -lt $width ] && [ "$most" -ge $((width - 2)) ] && right || wrong "--progress with $width columns: a line of $most"
done
for _ in {1..5000}; do cat sample; done > many
for pause in 0.6 2 5; do # routes are counted at the end of the first round, of 262,144 units, which a busy machine may not reach within the first pause
  { head -c 24000000 many; sleep $pause; tail -c +24000001 many; } | ./bgp_replay tables --workers 4 --progress - > out 2> said; tr '\r' '\n' < said > lines
  routes=$(grep -oE '[0-9]+ routes' lines | sort -u | tail -n 1); [ "$routes" != "$(wc -l < whole-tables) routes" ] || break
done
holds '--progress: routes' "$routes" "$(wc -l < whole-tables) routes"
shares() { # N: of each line of one of N files of one size, whether its share is that of all of them, and none goes back
  sed -nE 's/^([0-9]+) %, many \(([0-9]+) of '$1'\), [0-9]+ MB\/s, [0-9]+ routes *$/\1 \2/p' lines |
    awk -v files=$1 '$1 < int(($2 - 1) * 100 / files) || $1 > int($2 * 100 / files) || $1 < before { wrong++ } { before = $1; last = $2 } END { print NR, wrong + 0, last + 0 }'
}
for files in 8 32 128; do # so many that a line is of a file behind the first
  mapfile -t names < <(yes many | head -n $files); ./bgp_replay churn --workers 1 --quiet --progress "${names[@]}" 2>&1 > out | tr '\r' '\n' > lines
  read -r count others last < <(shares $files); [ $count -lt 2 ] || [ $last -lt 2 ] || break
done
holds '--progress: the share is that of all files' "$others" 0
[ $count -ge 2 ] && [ $last -ge 2 ] && right || wrong "--progress of $files files: $count lines, the last of file $last"
holds '--progress: each line of several files' "$(grep -vcE '^[0-9]+ %, many \([0-9]+ of '$files'\), [0-9]+ MB/s, [0-9]+ routes *$|^ *$' lines)" 0
slowly | ./bgp_replay churn --progress many - 2>&1 > out | tr '\r' '\n' > lines
read_of_all=$(sed -nE 's/^([0-9]+) MB, standard input \(2 of 2\), .*/\1/p' lines | sort -n | head -n 1)
[ "${read_of_all:-0}" -ge $(($(stat -L -c %s many) / 1000000)) ] && right || wrong "--progress of a file and a pipe: ${read_of_all:-no} MB"
./bgp_replay tables --progress sample > out 2> said; judge '--progress of a small file' 0 '' whole-tables $?
./bgp_replay tables --progress 'cut' > out 2> said; judge '--progress of damage' 1 'damaged: 1' something $?

echo "$passed passed, $failed failed"
[ $failed = 0 ] && [ $passed -gt 0 ]
