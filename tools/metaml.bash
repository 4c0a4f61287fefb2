# Completion for bash of metaml, tools/explain, tools/code and tools/kernels: source tools/metaml.bash

_metaml() {
  local word=${COMP_WORDS[COMP_CWORD]} before=${COMP_WORDS[COMP_CWORD - 1]} command=${COMP_WORDS[1]}
  local commands='run erased link sample migrate wat check' options=''
  COMPREPLY=()
  if [ "$COMP_CWORD" = 1 ]; then
    mapfile -t COMPREPLY < <(compgen -W "$commands" -- "$word")
    return
  fi
  case $before in
    --workers) mapfile -t COMPREPLY < <(compgen -W '1 2 4 8 16 32 64' -- "$word") && return ;;
    --fuel) mapfile -t COMPREPLY < <(compgen -W '1000 1000000 10000000' -- "$word") && return ;;
    --cache) mapfile -t COMPREPLY < <(compgen -f -- "$word") && return ;;
  esac
  case $command in
    run) options='--workers --fuel --simplify --cache' ;;
    erased) options='--fuel' ;;
    link) options='--workers --fuel' ;;
    migrate) options='--cache' ;;
  esac
  case $word in
    -*) mapfile -t COMPREPLY < <(compgen -W "$options" -- "$word") ;;
    *) mapfile -t COMPREPLY < <(compgen -f -X '!*.metaml' -- "$word"; compgen -d -S / -- "$word") ;;
  esac
  case $command in wat | check) mapfile -t COMPREPLY < <(compgen -f -- "$word") ;; esac
}

_metaml_explain() {
  local word=${COMP_WORDS[COMP_CWORD]}
  case $word in
    -*) mapfile -t COMPREPLY < <(compgen -W '--workers --fuel --simplify --cache --quiet --types --help --version' -- "$word") ;;
    *) mapfile -t COMPREPLY < <(compgen -f -X '!*.metaml' -- "$word"; compgen -d -S / -- "$word") ;;
  esac
}

_metaml_code() {
  local word=${COMP_WORDS[COMP_CWORD]}
  case $word in
    -*) mapfile -t COMPREPLY < <(compgen -W '--workers --fuel --simplify --wat --help' -- "$word") ;;
    *) mapfile -t COMPREPLY < <(compgen -f -X '!*.metaml' -- "$word"; compgen -d -S / -- "$word") ;;
  esac
}

complete -o filenames -F _metaml metaml ./metaml
complete -o filenames -F _metaml_explain explain tools/explain
complete -o filenames -F _metaml_code code tools/code
complete -d kernels tools/kernels
