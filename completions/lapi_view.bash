# Completion of lapi_view's words for bash: source this file.
_lapi_view() {
  COMPREPLY=()
  local words=()
  case "$COMP_CWORD" in
    1) words=(chart pcap) ;;
    2) [ "${COMP_WORDS[1]}" = chart ] && words=(--from --to) ;;
    4) [ "${COMP_WORDS[2]}" = --from ] && words=(--to) ;;
  esac
  mapfile -t COMPREPLY < <(compgen -W "${words[*]}" -- "${COMP_WORDS[COMP_CWORD]}")
}
complete -F _lapi_view lapi_view
