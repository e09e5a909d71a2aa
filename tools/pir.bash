# Completions of `pir`, `pir_list` and `pir_show` for bash: source this file, or put it into
# /usr/share/bash-completion/completions as pir, pir_list and pir_show.
# docs/check compares what it offers with the commands and options of the code.

_pir_commands='fetch serve replay demo lookup split front selfrun'
_pir_list_commands='build find check help'

# Prints the options of a command, in the order in which the man page tells of them.
_pir_options() {
  case $1 in
    fetch) echo --rows --width --block --more --degree --agree --scheme --tau --coins --record --report ;;
    serve) echo --database --width --conns --listen --scheme --workers ;;
    replay) echo --report ;;
    demo) echo --port --database --rows --width --block --servers --degree --agree --coins ;;
    lookup) echo --rows --width --key --degree --agree --coins ;;
    split) echo --database --width --servers --tau --into --coins ;;
    front) echo --rows --width --shard --conns --listen ;;
    selfrun) echo --seed --rows --width --servers --degree --agree --liars --workers --slow ;;
  esac
}

# Prints the options of a command of pir_list, in the order in which the man page tells of them.
_pir_list_options() {
  case $1 in
    build) echo --database --catalog --values --value-bytes --digest-bytes --rows --coins ;;
    find) echo --keys --servers --degree --agree --coins --hex ;;
  esac
}

# Offers those of the options that begin with a word and don't stand yet: each may stand once.
_pir_offer() {
  local word=$1 option offered=()
  shift
  for option; do
    case " ${COMP_WORDS[*]:2:COMP_CWORD-2} " in
      *" $option "*) ;;
      *) offered+=("$option") ;;
    esac
  done
  mapfile -t COMPREPLY < <(compgen -W "${offered[*]}" -- "$word")
}

# Offers files and folders that begin with a word.
_pir_files() {
  compopt -o filenames 2>/dev/null
  mapfile -t COMPREPLY < <(compgen -f -- "$1")
}

# Sets `word` and `before` of its caller to the word at the cursor and the one before it; where that word is a command,
# offers these commands and succeeds.
_pir_begin() {
  COMPREPLY=()
  word=${COMP_WORDS[COMP_CWORD]} before=${COMP_WORDS[COMP_CWORD-1]}
  if ((COMP_CWORD == 1)); then
    mapfile -t COMPREPLY < <(compgen -W "$1" -- "$word")
    return 0
  fi
  # (bash takes --rows=4 for three words)
  if [ "$word" = = ]; then
    word=
  elif [ "$before" = = ]; then
    before=${COMP_WORDS[COMP_CWORD-2]}
  fi
  return 1
}

_pir() {
  local word before
  _pir_begin "$_pir_commands" && return
  case $before in
    --coins | --database | --into | --record) _pir_files "$word" ;;
    --scheme) mapfile -t COMPREPLY < <(compgen -W 'shamir xor' -- "$word") ;;
    --report | --slow | [!-]*)
      if [ "${COMP_WORDS[1]}" = replay ] && [ "${word:0:1}" != - ]; then
        _pir_files "$word"
        return
      fi
      # (options are words without blanks)
      # shellcheck disable=SC2046
      _pir_offer "$word" $(_pir_options "${COMP_WORDS[1]}")
      ;;
  esac
}

_pir_list() {
  local word before
  _pir_begin "$_pir_list_commands --help --version" && return
  case $before in
    --catalog | --coins | --database | --keys) _pir_files "$word" ;;
    --hex | --values | [!-]*)
      # A command has files beside its options.
      if [ "${word:0:1}" = - ]; then
        # shellcheck disable=SC2046
        _pir_offer "$word" $(_pir_list_options "${COMP_WORDS[1]}") --help
      elif [ "${COMP_WORDS[1]}" = help ]; then
        mapfile -t COMPREPLY < <(compgen -W "build find check" -- "$word")
      else
        _pir_files "$word"
      fi
      ;;
  esac
}

_pir_show() {
  COMPREPLY=()
  ((COMP_CWORD > 1)) || _pir_files "${COMP_WORDS[COMP_CWORD]}"
}

complete -F _pir pir
complete -F _pir_list pir_list
complete -F _pir_show pir_show
