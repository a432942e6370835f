# Completion of dory and dory_server for bash.

_dory() {
  local commands='init post remove search resume latest rotate'
  local options='--folder --member --depth --probes --master --serial'
  local alone='--help --version'
  local word=${COMP_WORDS[COMP_CWORD]}
  case $COMP_CWORD in
    1) mapfile -t COMPREPLY < <(compgen -W "$alone" -- "$word"; compgen -f -- "$word") ;;
    2 | 3) mapfile -t COMPREPLY < <(compgen -W '127.0.0.1:7001 127.0.0.1:7002' -- "$word") ;;
    4) mapfile -t COMPREPLY < <(compgen -W "$commands" -- "$word") ;;
    *) if [ "${COMP_WORDS[4]}" = init ]; then mapfile -t COMPREPLY < <(compgen -W "$options" -- "$word"); fi ;;
  esac
}

_dory_server() {
  local roles='lead follow'
  local alone='--help --version'
  local word=${COMP_WORDS[COMP_CWORD]}
  case $COMP_CWORD in
    1) mapfile -t COMPREPLY < <(compgen -W "$roles $alone" -- "$word") ;;
    2) mapfile -t COMPREPLY < <(compgen -W '127.0.0.1:7001 127.0.0.1:7002' -- "$word") ;;
    3) mapfile -t COMPREPLY < <(compgen -W '1' -- "$word") ;;
    *) mapfile -t COMPREPLY < <(compgen -W '1:11:4' -- "$word") ;;
  esac
}

# A colon begins no new word here: addresses and folders are whole words.
COMP_WORDBREAKS=${COMP_WORDBREAKS//:/}
complete -F _dory dory
complete -F _dory_server dory_server
