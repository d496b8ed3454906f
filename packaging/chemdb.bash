# Completion for bash: the commands of chemdb, their options, and files.
_chemdb() {
  local word=${COMP_WORDS[COMP_CWORD]} before=${COMP_WORDS[COMP_CWORD - 1]} i command=''
  for ((i = 1; i < COMP_CWORD; i++)); do
    case ${COMP_WORDS[i]} in
      --workers | --page | --commits) i=$((i + 1)) ;;
      -*) ;;
      *)
        command=${COMP_WORDS[i]}
        break
        ;;
    esac
  done
  COMPREPLY=()
  case $before in
    --workers) mapfile -t COMPREPLY < <(compgen -W '1 2 3 4 8 16' -- "$word") && return ;;
    --page) mapfile -t COMPREPLY < <(compgen -W '1 16 64 256' -- "$word") && return ;;
    --commits) return ;;
  esac
  case $word in
    -*)
      local options='--workers --page --commits'
      case $command in
        '') options="$options --help --version" ;;
        init) options='' ;;
        bulk) options='--workers --page' ;;
      esac
      mapfile -t COMPREPLY < <(compgen -W "$options" -- "$word")
      return
      ;;
  esac
  case $command in
    '') mapfile -t COMPREPLY < <(compgen -W 'mem init run serve bulk drill' -- "$word") ;;
    init | run | serve)
      compopt -o filenames 2>/dev/null || true
      mapfile -t COMPREPLY < <(compgen -f -- "$word")
      ;;
  esac
}
complete -F _chemdb chemdb
