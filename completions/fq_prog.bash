# Completion of fq_prog for bash: commands, options, encodings, file names, and after
# the files the steps.

# Sets what the program's help names, in variables of the caller. `files` are those of `command`.
# shellcheck disable=SC2034  # the variables are the caller's
_fq_prog_known() {
  # made by packaging/made.py: words-for-bash
  commands='PE IL EXAMPLE'
  with_file='--trimlog --report'
  with_value='--threads --block --depth --chunk --encoding'
  flags='--no-name-check --sync --explain --help --version'
  encodings='sanger illumina13 solexa'
  steps='LEADING: TRAILING: SLIDINGWINDOW: CROP: HEADCROP: AVGQUAL: MINLEN: TOPHRED33'
  case $command in
    PE) files=6 ;;
    IL) files=5 ;;
  esac
  # end of words-for-bash
}

# Whether a word is one of a list.
_fq_prog_among() { [[ " $2 " == *" $1 "* ]]; }

# Sets `place` to the number of files and steps before the cursor, and `command` to the command.
_fq_prog_place() {
  local at word
  place=0
  command=
  for ((at = 1; at < COMP_CWORD; at++)); do
    word=${COMP_WORDS[at]}
    if _fq_prog_among "$word" "$with_file $with_value"; then
      # The value is the next word, or comes after a =, which bash takes for a word too.
      if [ "${COMP_WORDS[at + 1]-}" = = ]; then at=$((at + 1)); fi
      at=$((at + 1))
    elif [[ $word == -* ]]; then
      continue
    elif [ -z "$command" ] && _fq_prog_among "$word" "$commands help"; then
      command=$word
    else
      place=$((place + 1))
    fi
  done
}

# Offers those of the words of a list that begin as the word at the cursor.
_fq_prog_offer() { mapfile -t COMPREPLY < <(compgen -W "$1" -- "$word"); }

_fq_prog() {
  local word=${COMP_WORDS[COMP_CWORD]} previous=${COMP_WORDS[COMP_CWORD - 1]} command='' place files=
  local commands with_file with_value flags encodings steps
  COMPREPLY=()
  _fq_prog_known
  if [ "$word" = = ]; then word=; fi
  if [ "$previous" = = ]; then previous=${COMP_WORDS[COMP_CWORD - 2]}; fi
  if [ "$previous" = --encoding ]; then
    _fq_prog_offer "$encodings"
    return
  elif _fq_prog_among "$previous" "$with_file"; then
    compopt -o default
    return
  elif _fq_prog_among "$previous" "$with_value"; then
    return
  fi
  _fq_prog_place
  _fq_prog_known
  if [ -z "$command" ]; then
    _fq_prog_offer "$commands --help --version"
  elif [ -z "$files" ]; then
    _fq_prog_offer "$([ "$command" != help ] || echo "$commands")"
  elif [[ $word == -* ]]; then
    _fq_prog_offer "$with_file $with_value $flags"
  elif [ "$place" -lt "$files" ]; then
    compopt -o default
  else
    # A step that takes a number ends in a colon, and the number follows it at once.
    compopt -o nospace
    _fq_prog_offer "$steps"
  fi
}

complete -F _fq_prog fq_prog
