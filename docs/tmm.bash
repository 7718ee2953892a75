# Completion for bash: the words of `tmm`.
_tmm() {
  COMPREPLY=()
  if [ "$COMP_CWORD" -eq 1 ]; then
    mapfile -t COMPREPLY < <(compgen -W 'agents demo repairs suppose timeline' -- "${COMP_WORDS[1]}")
  fi
}
complete -o default -F _tmm tmm
