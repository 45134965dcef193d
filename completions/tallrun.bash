# Completion of tallrun's words for bash: its two options, and names of scripts and folders.
_tallrun() {
  local word=${COMP_WORDS[COMP_CWORD]} before=${COMP_WORDS[COMP_CWORD - 1]}
  COMPREPLY=()
  case $before in
    --workers)
      mapfile -t COMPREPLY < <(compgen -W '1 2 4 8 16 32 64' -- "$word")
      return
      ;;
    --demo) return ;;
  esac
  if [[ $word == -* ]]; then
    mapfile -t COMPREPLY < <(compgen -W '--workers --demo' -- "$word")
    return
  fi
  mapfile -t COMPREPLY < <(compgen -f -X '!*.m' -- "$word"; compgen -d -S / -- "$word")
  compopt -o filenames 2>/dev/null
  if [[ ${#COMPREPLY[@]} -eq 1 && ${COMPREPLY[0]} == */ ]]; then
    compopt -o nospace 2>/dev/null
  fi
}
complete -F _tallrun tallrun
