# Completions of mmsim, mmlog, mmshow, mmnames and melzudek for bash: the forms of each program, as
# its own --help lists them, and its options; files where no form is wanted.

_melzudek_forms() { # the forms that a program's help lists, one on a line
  "$1" --help 2> /dev/null |
    sed -nE '/^(Commands|positional arguments):/,/^(Options|options):/s/^(  |    )([a-z]+)  .*$/\2/p'
}

_melzudek() {
  local word=${COMP_WORDS[COMP_CWORD]} words
  if [ "$COMP_CWORD" -eq 1 ]; then
    words="$(_melzudek_forms "$1") -h --help"
    [ "${1##*/}" = melzudek ] || words+=" -V --version"
  elif [ "${1##*/}" = melzudek ] && [[ $word == -* ]]; then
    words=$("$1" "${COMP_WORDS[1]}" --help 2> /dev/null | grep -oE -e '--[a-z]+')
  else
    return 0 # bash completes a file
  fi
  mapfile -t COMPREPLY < <(compgen -W "$words" -- "$word")
}

complete -o bashdefault -o default -F _melzudek mmsim mmlog mmshow mmnames melzudek
