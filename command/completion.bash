# Completion for bash: `source command/completion.bash`, or a copy in the folder of completions. The commands are those of the gijpsando that is called.
_gijpsando() {
  local word=${COMP_WORDS[COMP_CWORD]} commands
  COMPREPLY=()
  if [ "$COMP_CWORD" -eq 1 ]; then
    commands=$("${COMP_WORDS[0]}" --help 2> /dev/null | sed -n '/^commands:/,/^options:/s/^  //p')
    mapfile -t COMPREPLY < <(compgen -W "$commands --help --version" -- "$word")
  elif [ "$COMP_CWORD" -eq 2 ]; then
    mapfile -t COMPREPLY < <(compgen -W "--help" -- "$word"; compgen -f -- "$word")
  fi
}
complete -o filenames -F _gijpsando gijpsando
