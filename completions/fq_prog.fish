# Completion of fq_prog for fish: commands, options, encodings, file names, and after
# the files the steps.

# made by packaging/made.py: words-for-fish
# The options that take a value.
function __fq_prog_valued
    printf '%s\n' --threads --block --depth --chunk --encoding --trimlog --report
end

# The number of files that a command takes.
function __fq_prog_files
    switch $argv[1]
        case PE
            echo 6
        case IL
            echo 5
        case '*'
            return 1
    end
end
# end of words-for-fish

# Whether the word at the cursor may be a command, a file or a step, as the argument says.
function __fq_prog_wants
    set -l words (commandline -opc)
    set -l command
    set -l place 0
    set -l skip no
    for word in $words[2..-1]
        if test $skip = yes
            set skip no
        else if contains -- $word (__fq_prog_valued)
            set skip yes
        else if string match -q -- '-*' $word
            continue
        else if test -z "$command"
            set command $word
        else
            set place (math $place + 1)
        end
    end
    if test -z "$command"
        test $argv[1] = command
        return
    end
    set -l files (__fq_prog_files $command)
    or return 1
    if test $place -lt $files
        contains -- $argv[1] file trimming
    else
        contains -- $argv[1] step trimming
    end
end

complete -c fq_prog -f
# made by packaging/made.py: offers-for-fish
complete -c fq_prog -n '__fq_prog_wants command' -a PE -d 'trims the pairs of two FASTQ files, and prints a summary'
complete -c fq_prog -n '__fq_prog_wants command' -a IL -d 'trims the pairs of one interleaved FASTQ file, and prints a summary'
complete -c fq_prog -n '__fq_prog_wants command' -a EXAMPLE -d 'prints what becomes of two built-in pairs under LEADING'
complete -c fq_prog -n '__fq_prog_wants step' -a 'LEADING: TRAILING: SLIDINGWINDOW: CROP: HEADCROP: AVGQUAL: MINLEN: TOPHRED33'
complete -c fq_prog -n '__fq_prog_wants trimming' -l threads -x -d 'threads that trim, 1 to 64'
complete -c fq_prog -n '__fq_prog_wants trimming' -l block -x -d 'pairs trimmed and written at a time, 1 to 65536'
complete -c fq_prog -n '__fq_prog_wants trimming' -l depth -x -d 'blocks that may wait for each thread, 1 to 64'
complete -c fq_prog -n '__fq_prog_wants trimming' -l chunk -x -d 'bytes read at a time, 1 to 1048576'
complete -c fq_prog -n '__fq_prog_wants trimming' -l encoding -x -a 'sanger illumina13 solexa' -d 'what a quality byte is'
complete -c fq_prog -n '__fq_prog_wants trimming' -l trimlog -rF -d 'writes a line for each read'
complete -c fq_prog -n '__fq_prog_wants trimming' -l no-name-check -d 'pairs mates whatever their names'
complete -c fq_prog -n '__fq_prog_wants trimming' -l sync -d 'waits until the outputs are on disk'
complete -c fq_prog -n '__fq_prog_wants trimming' -l report -rF -d 'writes counts of pairs, reads, bases and steps as JSON'
complete -c fq_prog -n '__fq_prog_wants trimming' -l explain -d 'gives the reason for an error in its line'
# end of offers-for-fish
complete -c fq_prog -s h -l help -d 'print help'
complete -c fq_prog -s V -l version -d 'print version'
complete -c fq_prog -n '__fq_prog_wants file' -F
