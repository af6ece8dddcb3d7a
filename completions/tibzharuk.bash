# Completion of tibzharuk for bash: commands, options, what they take, file names, and steps.

# Sets what the help of `command` names, in variables of the caller: its options by what they take,
# its steps, and the number of files before them. `choices` are the values of the option `previous`.
# shellcheck disable=SC2034  # the variables are the caller's
_tibzharuk_known() {
  # made by packaging/made.py: command-for-bash
  commands='trim PE page sum samples workflow selftest'
  case $command in
    trim)
      several='-1 -2 -i'
      with_file='--out --paired1 --unpaired1 --paired2 --unpaired2 --interleaved --summary --trimlog --report --html --adapters --cutadapt-report --cutadapt-log --program'
      with_value='--through --cutadapt --pairs -t --threads --compressor --level --compress-threads --decompressor --encoding --block --depth --chunk'
      flags='--checksums --no-unpaired --no-report --expect-pairs --poly-g --need-end --progress --no-progress -h --help --dry-run -V --version --no-name-check --sync'
      steps='LEADING: TRAILING: SLIDINGWINDOW: CROP: HEADCROP: AVGQUAL: MINLEN: TOPHRED33'
      files=0
      ;;
    PE)
      with_file='-trimlog -summary -basein -baseout --out --summary --trimlog --report --html --adapters --cutadapt-report --cutadapt-log --program'
      with_value='-threads --cutadapt --pairs --threads --compressor --level --compress-threads --decompressor --encoding --block --depth --chunk'
      flags='-phred33 -phred64 -quiet -validatePairs --checksums --no-report --poly-g --need-end --progress --no-progress --help --dry-run --version --no-name-check --sync'
      steps='ILLUMINACLIP: LEADING: TRAILING: SLIDINGWINDOW: CROP: HEADCROP: AVGQUAL: MINLEN: TOPHRED33'
      files=6
      ;;
    page)
      with_value='--sample --cutadapt --lane'
      flags='-h --help'
      ;;
    sum)
      with_file='--paired1 --unpaired1 --paired2 --unpaired2 --trimlog --summary'
      flags='-h --help'
      ;;
    samples)
      flags='-h --help --by-run'
      ;;
    workflow)
      flags='-h --help'
      ;;
    selftest)
      with_file='--html --json --reads'
      with_value='--pairs --encoding'
      flags='-h --help --matrix'
      ;;
  esac
  case $previous in
    --adapters) choices='auto truseq nextera smallrna' ;;
    --compressor) choices='bgzip pigz gzip igzip' ;;
    --decompressor) choices='bgzip gzip' ;;
    --encoding) choices='sanger illumina13 solexa' ;;
  esac
  # end of command-for-bash
}

# Whether a word is one of a list.
_tibzharuk_among() { [[ " $2 " == *" $1 "* ]]; }

# Whether the word at the cursor comes after a step, or after the -- before the steps. Sets `place`
# to the number of files before it, and `open` to the option before it if that takes several files.
_tibzharuk_is_step() {
  local at word
  for ((at = 2; at < COMP_CWORD; at++)); do
    word=${COMP_WORDS[at]}
    if _tibzharuk_among "$word" "$several"; then
      open=$word
    elif _tibzharuk_among "$word" "$with_file $with_value"; then
      open=
      # The value is the next word, or comes after a =, which bash takes for a word too.
      if [ "${COMP_WORDS[at + 1]-}" = = ]; then at=$((at + 1)); fi
      at=$((at + 1))
      case $word in
        -basein) place=$((place + 2)) ;;
        -baseout) place=$((place + 4)) ;;
      esac
    elif [[ $word == -?* ]]; then
      open=
      if [ "$word" = -- ] && [ "$files" = 0 ]; then return 0; fi
    elif _tibzharuk_among "$word" "${steps//:/}"; then
      return 0
    else
      place=$((place + 1))
    fi
  done
  return 1
}

# Offers those of the words of a list that begin as the word at the cursor.
_tibzharuk_offer() { mapfile -t COMPREPLY < <(compgen -W "$1" -- "$word"); }

# A step that takes a number ends in a colon, and the number follows it at once.
_tibzharuk_offer_steps() {
  compopt -o nospace
  _tibzharuk_offer "$steps"
}

_tibzharuk() {
  local word=${COMP_WORDS[COMP_CWORD]} previous=${COMP_WORDS[COMP_CWORD - 1]} command=${COMP_WORDS[1]}
  local commands several='' with_file='' with_value='' flags steps='' files='' choices='' place=0 open=''
  COMPREPLY=()
  if [ "$word" = = ]; then word=; fi
  if [ "$previous" = = ]; then previous=${COMP_WORDS[COMP_CWORD - 2]}; fi
  _tibzharuk_known
  if [ "$COMP_CWORD" = 1 ]; then
    if [[ $word == -* ]]; then commands='--help --version'; fi
    _tibzharuk_offer "$commands"
  elif _tibzharuk_is_step; then
    _tibzharuk_offer_steps
  elif _tibzharuk_among "$previous" "$with_file $with_value"; then
    _tibzharuk_offer "$choices"
    if _tibzharuk_among "$previous" "$with_file"; then
      compopt -o default -o filenames
      if [ -n "$choices" ]; then mapfile -t -O "${#COMPREPLY[@]}" COMPREPLY < <(compgen -f -- "$word"); fi
    fi
  elif [[ $word == -* ]]; then
    _tibzharuk_offer "$several $with_file $with_value $flags"
  elif [ -n "$open" ] || [ -z "$files" ] || [ "$place" -lt "$files" ]; then
    compopt -o default
  else
    _tibzharuk_offer_steps
  fi
}

complete -F _tibzharuk tibzharuk
