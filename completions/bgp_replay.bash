# Completion of bgp_replay for bash. Made by tools/options.py.
_bgp_replay() {
  local word=${COMP_WORDS[COMP_CWORD]} before=${COMP_WORDS[COMP_CWORD-1]} command='' i
  local commands='tables visibility origins seen churn peers match history faults'
  for ((i = 1; i < COMP_CWORD; i++)); do
    case ${COMP_WORDS[i]} in
      tables|visibility|origins|seen|churn|peers|match|history|faults) command=${COMP_WORDS[i]}; break;;
    esac
  done
  COMPREPLY=()
  case $before in
    --family) mapfile -t COMPREPLY < <(compgen -W 'ipv4 ipv6' -- "$word"); return;;
    --states) mapfile -t COMPREPLY < <(compgen -W 'recorded established' -- "$word"); return;;
    --state-peers) mapfile -t COMPREPLY < <(compgen -W 'recorded local by-as' -- "$word"); return;;
    --rib) mapfile -t COMPREPLY < <(compgen -W 'add replace' -- "$word"); return;;
    --table-dump) mapfile -t COMPREPLY < <(compgen -W 'aside read' -- "$word"); return;;
    --errors) mapfile -t COMPREPLY < <(compgen -W 'skip rfc7606' -- "$word"); return;;
    --written-by) mapfile -t COMPREPLY < <(compgen -W 'bird frr openbgpd gobgp' -- "$word"); return;;
    --format) mapfile -t COMPREPLY < <(compgen -W 'text json' -- "$word"); return;;
    --addresses) mapfile -t COMPREPLY < <(compgen -W 'full short' -- "$word"); return;;
    --attributes) mapfile -t COMPREPLY < <(compgen -W 'communities extended large originator clusters otc all' -- "$word"); return;;
    --workers) mapfile -t COMPREPLY < <(compgen -W '1 2 4 8 16 32 64' -- "$word"); return;;
    --ring) mapfile -t COMPREPLY < <(compgen -W '1 64 1024 65536' -- "$word"); return;;
    --address|--prefix|--peer|--peers|--origin|--path|--community|--until|--since) return;;
  esac
  if [[ -z $command ]]; then
    mapfile -t COMPREPLY < <(compgen -W "$commands help --help --version" -- "$word")
  elif [[ $word == -* ]]; then
    local options='--files-from --family --prefix --prefixes --peer --peers --until --states --state-peers --rib --table-dump --errors --written-by --format --addresses --attributes --header --summary --progress --quiet --workers --ring --help --version'
    case $command in match) options="--address $options";; esac
    case $command in tables|visibility|origins|seen|churn|peers|match|history) options="--origin $options";; esac
    case $command in tables|visibility|origins|seen|churn|peers|match|history) options="--path $options";; esac
    case $command in tables|visibility|origins|seen|churn|peers|match|history) options="--community $options";; esac
    case $command in churn|history) options="--since $options";; esac
    case $command in history) options="--same $options";; esac
    mapfile -t COMPREPLY < <(compgen -W "$options" -- "$word")
  else
    compopt -o filenames 2> /dev/null
    mapfile -t COMPREPLY < <(compgen -f -- "$word")
  fi
}
complete -F _bgp_replay bgp_replay
