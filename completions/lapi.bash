# Completion of lapi's words for bash: source this file.
_lapi() {
  COMPREPLY=()
  if [ "$COMP_CWORD" -eq 1 ]; then
    mapfile -t COMPREPLY < <(compgen -W "run journal wire trace check live audit capture landings array show gen sum" -- "${COMP_WORDS[1]}")
  fi
}
complete -F _lapi lapi
