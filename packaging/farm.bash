# completions of farm for bash
_farm() {
  local word=${COMP_WORDS[COMP_CWORD]} before=${COMP_WORDS[COMP_CWORD - 1]} site i
  if [ "$COMP_CWORD" -eq 1 ]; then
    mapfile -t COMPREPLY < <(compgen -W 'relay front send request topup account stop check book audit schedule replay report words picture --help --version' -- "$word")
    return
  fi
  case $before in
    --site | --token | --record | --book)
      mapfile -t COMPREPLY < <(compgen -f -- "$word")
      return
      ;;
    --log)
      mapfile -t COMPREPLY < <(compgen -W 'off error warn info debug' -- "$word")
      return
      ;;
    --unit)
      mapfile -t COMPREPLY < <(compgen -W 'octets time units' -- "$word")
      return
      ;;
    --log-format)
      mapfile -t COMPREPLY < <(compgen -W 'text logfmt' -- "$word")
      return
      ;;
    --answers | --status | --at) return ;;
    --name | --client | --peer)
      # the names of nodes in the site file that stands in the line
      for ((i = 2; i < COMP_CWORD; i++)); do [ "${COMP_WORDS[i]}" = --site ] && site=${COMP_WORDS[i + 1]}; done
      [ -r "${site:-}" ] && mapfile -t COMPREPLY < <(compgen -W "$(sed -n 's/^.*\bname *= *"\([^"]*\)".*$/\1/p' "$site")" -- "$word")
      return
      ;;
  esac
  case ${COMP_WORDS[1]} in
    relay) mapfile -t COMPREPLY < <(compgen -W '--site --name --answers --status --token --record --log --log-format' -- "$word") ;;
    front) mapfile -t COMPREPLY < <(compgen -W '--site --book --clock-behind --change-terms --answers --status --token --record --log --log-format' -- "$word") ;;
    send) mapfile -t COMPREPLY < <(compgen -W '--site --client --peer --record --log --log-format' -- "$word") ;;
    request)
      if [ "$COMP_CWORD" -eq 2 ]; then
        mapfile -t COMPREPLY < <(compgen -W 'initial update termination debit refund balance price' -- "$word")
      else
        mapfile -t COMPREPLY < <(compgen -W '--session --number --ident --group --unit --asked --used --again' -- "$word")
      fi
      ;;
    topup) mapfile -t COMPREPLY < <(compgen -W '--site --client --peer --type --id --key --ident --group --unit --count' -- "$word") ;;
    account) mapfile -t COMPREPLY < <(compgen -W '--type --at --token' -- "$word") ;;
    stop) mapfile -t COMPREPLY < <(compgen -W '--at --token' -- "$word") ;;
    audit | schedule)
      mapfile -t COMPREPLY < <(compgen -W '--site --book' -- "$word"; compgen -f -- "$word")
      ;;
    picture) mapfile -t COMPREPLY < <(compgen -W '--site --from --to' -- "$word") ;;
    book)
      if [ "$COMP_CWORD" -eq 2 ]; then
        mapfile -t COMPREPLY < <(compgen -W 'create check report export change-terms backup add-accounts close-accounts open-accounts tariffs' -- "$word")
      elif [[ ${COMP_WORDS[2]} == *-accounts || ${COMP_WORDS[2]} == tariffs ]]; then
        mapfile -t COMPREPLY < <(compgen -W '--at --token' -- "$word"; compgen -f -- "$word")
      else
        mapfile -t COMPREPLY < <(compgen -W '--site' -- "$word"; compgen -f -- "$word")
      fi
      ;;
    check) mapfile -t COMPREPLY < <(compgen -W '--site --book' -- "$word") ;;
    replay | report) mapfile -t COMPREPLY < <(compgen -W '--site --skipped' -- "$word") ;;
  esac
}
complete -o filenames -F _farm farm
