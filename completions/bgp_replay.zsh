#compdef bgp_replay
# Completion of bgp_replay for zsh; it is installed as _bgp_replay. Made by tools/options.py.
_bgp_replay() {
  local -a commands options
  local line state
  commands=(
    'tables:print every route of every peer'
    'visibility:count the peers that have each prefix'
    'origins:print the prefixes that have more than one origin AS'
    'seen:count the peers that have each prefix with each origin AS'
    'churn:count what each peer announced and withdrew'
    'peers:list the peers, whether they are up, their routes, and where they begin'
    'match:print each peer'\''s routes of the longest prefix that contains an address'
    'history:list what happened to each prefix, when and at which peer'
    'faults:list the damaged records of the dumps'
  )
  _arguments -C '(- *)'{-h,--help}'[print a help text]' '(- *)'{-V,--version}'[print the version]' '1: :->command' '*:: :->words'
  case $state in
    command) _describe -t commands command commands;;
    words)
      options=(
        '*--files-from[replay the dumps that this file names, too]:FILE:_files'
        '--family[say which unicast routes are replayed, those of ipv4 or those of ipv6]:FAMILY:(ipv4 ipv6)'
        '*--prefix[report on this prefix alone]:PREFIX:'
        '*--prefixes[report on the prefixes in this file alone]:FILE:_files'
        '*--peer[report on this peer alone]:PEER:'
        '--peers[report on the Ith of N shares of the peers alone]:I/N:'
        '--until[leave out messages, state changes and entries recorded after this second]:TIME:'
        '--states[say which state changes end a peer'\''s routes]:RULE:(recorded established)'
        '--state-peers[say whose state a state change is]:RULE:(recorded local by-as)'
        '--rib[say what a RIB dump does to the routes before it]:RULE:(add replace)'
        '--table-dump[say what is done with TABLE_DUMP records, as RIB dumps from before about 2008 and OpenBGPD'\''s dump table have them]:RULE:(aside read)'
        '--errors[say what is done about damaged messages and RIB entries]:RULE:(skip rfc7606)'
        '--written-by[take the rules that fit the dumps of this daemon]:NAME:(bird frr openbgpd gobgp)'
        '--format[say how lines are written\: fields with | between them, or JSON, one object a line]:FORM:(text json)'
        '--addresses[say how IPv6 addresses are printed, those of peers and of next hops alike]:FORM:(full short)'
        '*--attributes[keep these further attributes of routes]:LIST:(communities extended large originator clusters otc all)'
        '--header[print the columns'\'' names first]'
        '--summary[say on standard error what was read, in lines of a key and a value]'
        '--progress[show on standard error how far the reading of all files is]'
        '--quiet[leave out the notes on standard error]'
        '--workers[replay with this many threads, 1 to 64, beside which as many unpack packed dumps; with 1, one thread does all]:N:(1 2 4 8 16 32 64)'
        '--ring[let this many messages and entries wait for each thread, 1 to 65536]:N:(1 64 1024 65536)'
        '(- *)'{-h,--help}'[print a help text]'
        '(- *)'{-V,--version}'[print the version]'
        '*:dump:_files'
      )
      case ${words[1]} in match) options+=('--address[look up this address, as 192.0.2.1, or 2001\:db8\:\:1 with --family ipv6]:A:');; esac
      case ${words[1]} in tables|visibility|origins|seen|churn|peers|match|history) options+=('*--origin[report on routes of this origin AS alone]:AS:');; esac
      case ${words[1]} in tables|visibility|origins|seen|churn|peers|match|history) options+=('*--path[report only on routes whose AS path matches this mask]:MASK:');; esac
      case ${words[1]} in tables|visibility|origins|seen|churn|peers|match|history) options+=('*--community[report only on routes that have this community]:C:');; esac
      case ${words[1]} in churn|history) options+=('--since[list or count what was recorded from this second on]:TIME:');; esac
      case ${words[1]} in history) options+=('--same[list announcements of the very route that was there, too]');; esac
      _arguments $options;;
  esac
}
_bgp_replay "$@"
