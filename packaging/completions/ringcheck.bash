# Completion of ringcheck for bash.
_ringcheck() {
  local word=${COMP_WORDS[COMP_CWORD]} before=${COMP_WORDS[COMP_CWORD - 1]} command=${COMP_WORDS[1]} options=
  COMPREPLY=()
  if [ "$COMP_CWORD" -eq 1 ]; then
    mapfile -t COMPREPLY < <(compgen -W 'check report measure draw certify verify manifest explain show rewrite help --help --version' -- "$word")
    return
  fi
  # The shell cuts `--kind=layer` at its sign.
  if [ "$word" = = ]; then
    word='' before=${COMP_WORDS[COMP_CWORD - 1]}
  elif [ "$before" = = ]; then
    before=${COMP_WORDS[COMP_CWORD - 2]}
  fi
  case $before in
    --kind)
      mapfile -t COMPREPLY < <(compgen -W 'layer drill' -- "$word")
      return
      ;;
    --profile)
      mapfile -t COMPREPLY < <(compgen -W 'strict wide' -- "$word")
      return
      ;;
    --format)
      local formats='text json'
      [ "$command" != report ] || formats+=' html waivers'
      mapfile -t COMPREPLY < <(compgen -W "$formats" -- "$word")
      return
      ;;
    --waive | --outline)
      compopt -o filenames
      mapfile -t COMPREPLY < <(compgen -f -- "$word")
      return
      ;;
    --in)
      compopt -o filenames
      mapfile -t COMPREPLY < <(compgen -d -- "$word")
      return
      ;;
    --ring | --gap | --drill-off | --drill-wide | --max) return ;;
  esac
  case $command in
    check | certify) options='--ring --gap --profile --in --help' ;;
    draw) options='--ring --gap --profile --outline --in --help' ;;
    report) options='--ring --gap --drill-off --drill-wide --profile --max --waive --outline --format --exit-zero --in --help' ;;
    measure) options='--profile --format --in --help' ;;
    verify) options='--in --help' ;;
    manifest) options='--why --profile --in --help' ;;
    show) options='--kind --profile --in --help' ;;
    rewrite) options='--kind --in --help' ;;
    explain)
      mapfile -t COMPREPLY < <(compgen -W "$(ringcheck explain 2>/dev/null | cut -d: -f1)" -- "$word")
      return
      ;;
    help)
      mapfile -t COMPREPLY < <(compgen -W 'check report measure draw certify verify manifest explain show rewrite' -- "$word")
      return
      ;;
    *) return ;;
  esac
  if [[ $word == -* ]]; then
    mapfile -t COMPREPLY < <(compgen -W "$options" -- "$word")
  else
    compopt -o filenames
    mapfile -t COMPREPLY < <(compgen -f -- "$word")
  fi
}
complete -F _ringcheck ringcheck
