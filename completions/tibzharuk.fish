# Completion of tibzharuk for fish: commands, options, what they take, file names, and steps.

# made by packaging/made.py: command-lists-for-fish
# The options of a command that take several files.
function __tibzharuk_several
    switch $argv[1]
        case trim
            printf '%s\n' -1 -2 -i
    end
end

# The options of a command that take one value.
function __tibzharuk_valued
    switch $argv[1]
        case trim
            printf '%s\n' --out --paired1 --unpaired1 --paired2 --unpaired2 --interleaved --through --summary --trimlog --report --html --adapters --cutadapt --cutadapt-report --cutadapt-log --pairs -t --threads --compressor --level --compress-threads --decompressor --program --encoding --block --depth --chunk
        case PE
            printf '%s\n' -threads -trimlog -summary -basein -baseout --out --summary --trimlog --report --html --adapters --cutadapt --cutadapt-report --cutadapt-log --pairs --threads --compressor --level --compress-threads --decompressor --program --encoding --block --depth --chunk
        case page
            printf '%s\n' --sample --cutadapt --lane
        case sum
            printf '%s\n' --paired1 --unpaired1 --paired2 --unpaired2 --trimlog --summary
        case selftest
            printf '%s\n' --html --json --reads --pairs --encoding
    end
end

# The names of the steps of a command.
function __tibzharuk_steps
    switch $argv[1]
        case trim
            printf '%s\n' LEADING TRAILING SLIDINGWINDOW CROP HEADCROP AVGQUAL MINLEN TOPHRED33
        case PE
            printf '%s\n' ILLUMINACLIP LEADING TRAILING SLIDINGWINDOW CROP HEADCROP AVGQUAL MINLEN TOPHRED33
    end
end

# The number of files before the steps of a command.
function __tibzharuk_files
    switch $argv[1]
        case trim
            printf '%s\n' 0
        case PE
            printf '%s\n' 6
    end
end

# end of command-lists-for-fish
function __tibzharuk_begins
    test (count (commandline -opc)) -eq 1
end

# What the word at the cursor may be after a command: file, option or step.
function __tibzharuk_kinds
    set -l words (commandline -opc)
    set -l command $words[2]
    set -l files (__tibzharuk_files $command)
    set -l place 0
    set -l skip no
    set -l several no
    for word in $words[3..-1]
        if test $skip = yes
            set skip no
        else if contains -- $word (__tibzharuk_several $command)
            set several yes
        else if contains -- $word (__tibzharuk_valued $command)
            set skip yes
            set several no
            switch $word
                case -basein
                    set place (math $place + 2)
                case -baseout
                    set place (math $place + 4)
            end
        else if test $word = -- -a "$files" = 0
            echo step
            return
        else if string match -q -- '-?*' $word
            set several no
        else if contains -- (string replace -r ':.*' '' -- $word) (__tibzharuk_steps $command)
            echo step
            return
        else
            set place (math $place + 1)
        end
    end
    echo option
    if test -z "$files" -o $several = yes
        echo file
    else if test $place -lt $files
        echo file
    else
        echo step
    end
end

# Whether the word at the cursor may be of this kind, after this command or any.
function __tibzharuk_wants
    set -l words (commandline -opc)
    test (count $words) -ge 2
    and test "$argv[2]" = '' -o "$argv[2]" = "$words[2]"
    and contains -- $argv[1] (__tibzharuk_kinds)
end

complete -c tibzharuk -f
complete -c tibzharuk -n '__tibzharuk_wants file' -F
complete -c tibzharuk -n __tibzharuk_begins -s h -l help -d 'print help'
complete -c tibzharuk -n __tibzharuk_begins -s V -l version -d 'print the versions'
# made by packaging/made.py: command-for-fish
complete -c tibzharuk -n __tibzharuk_begins -a trim -d 'trims plain or compressed files, removes adapters, and makes all outputs or none'
complete -c tibzharuk -n __tibzharuk_begins -a PE -d 'the same by a line of Trimmomatic\'s paired-end mode, as it is'
complete -c tibzharuk -n __tibzharuk_begins -a page -d 'makes a page for the browser from a report'
complete -c tibzharuk -n __tibzharuk_begins -a sum -d 'adds up reports, such as those of the lanes of a sample'
complete -c tibzharuk -n __tibzharuk_begins -a samples -d 'prints the table of samples that the workflow reads'
complete -c tibzharuk -n __tibzharuk_begins -a workflow -d 'prepares a directory for the workflow, which trims many samples'
complete -c tibzharuk -n __tibzharuk_begins -a selftest -d 'checks this installation, and makes a record of it to be signed'
complete -c tibzharuk -n '__tibzharuk_wants step trim' -a 'LEADING: TRAILING: SLIDINGWINDOW: CROP: HEADCROP: AVGQUAL: MINLEN: TOPHRED33'
complete -c tibzharuk -n '__tibzharuk_wants option trim' -s 1 -rF -d 'forward and reverse reads'
complete -c tibzharuk -n '__tibzharuk_wants option trim' -s 2 -rF -d 'forward and reverse reads'
complete -c tibzharuk -n '__tibzharuk_wants option trim' -s i -rF -d 'interleaved reads, forward first'
complete -c tibzharuk -n '__tibzharuk_wants option trim' -l out -rF -d 'names all outputs that have no name of their own'
complete -c tibzharuk -n '__tibzharuk_wants option trim' -l checksums -d 'pREFIX.sha256 too, with the checksums of all outputs that are files, for sha256sum -c in its directory'
complete -c tibzharuk -n '__tibzharuk_wants option trim' -l no-unpaired -d 'unpaired reads go to /dev/null, unless they are named'
complete -c tibzharuk -n '__tibzharuk_wants option trim' -l no-report -d '--out names no report and no page'
complete -c tibzharuk -n '__tibzharuk_wants option trim' -l paired1 -rF -d 'forward reads whose mate survives too'
complete -c tibzharuk -n '__tibzharuk_wants option trim' -l unpaired1 -rF -d 'forward reads whose mate is dropped'
complete -c tibzharuk -n '__tibzharuk_wants option trim' -l paired2 -rF -d 'reverse reads whose mate survives too'
complete -c tibzharuk -n '__tibzharuk_wants option trim' -l unpaired2 -rF -d 'reverse reads whose mate is dropped'
complete -c tibzharuk -n '__tibzharuk_wants option trim' -l interleaved -rF -d 'both mates of a pair in turn, in place of --paired1 and --paired2'
complete -c tibzharuk -n '__tibzharuk_wants option trim' -l through -x -d 'what writes the file of --interleaved'
complete -c tibzharuk -n '__tibzharuk_wants option trim' -l expect-pairs -d 'refuse that file, SAM or BAM, unless it has one primary record of each mate that the command was given, mapped or not'
complete -c tibzharuk -n '__tibzharuk_wants option trim' -l summary -rF -d 'the summary, as a file too'
complete -c tibzharuk -n '__tibzharuk_wants option trim' -l trimlog -rF -d 'a line for each read'
complete -c tibzharuk -n '__tibzharuk_wants option trim' -l report -rF -d 'counts of pairs, reads, bases and steps as JSON, with the names of these files, what cutadapt removed, and the call, programs and inputs'
complete -c tibzharuk -n '__tibzharuk_wants option trim' -l html -rF -d 'the report as a page for the browser'
complete -c tibzharuk -n '__tibzharuk_wants option trim' -l adapters -rF -a 'auto truseq nextera smallrna' -d '3\' adapters'
complete -c tibzharuk -n '__tibzharuk_wants option trim' -l poly-g -d 'remove the G\'s that NextSeq and NovaSeq write at the ends of reads where they see nothing, and other poor ends'
complete -c tibzharuk -n '__tibzharuk_wants option trim' -l cutadapt -x -d 'more options for cutadapt, such as \'-e 0.2 -O 5\''
complete -c tibzharuk -n '__tibzharuk_wants option trim' -l cutadapt-report -rF -d 'what cutadapt counted, as JSON'
complete -c tibzharuk -n '__tibzharuk_wants option trim' -l cutadapt-log -rF -d 'what cutadapt printed, which MultiQC reads'
complete -c tibzharuk -n '__tibzharuk_wants option trim' -l need-end -d 'refuse a BGZF file without its end block, which may be cut'
complete -c tibzharuk -n '__tibzharuk_wants option trim' -l pairs -x -d 'trim only the first N pairs of all lanes together, to try settings'
complete -c tibzharuk -n '__tibzharuk_wants option trim' -s t -l threads -x -d 'threads, 1 to 64'
complete -c tibzharuk -n '__tibzharuk_wants option trim' -l compressor -x -a 'bgzip pigz gzip igzip' -d 'bgzip, pigz, gzip or igzip'
complete -c tibzharuk -n '__tibzharuk_wants option trim' -l level -x -d 'how hard to compress'
complete -c tibzharuk -n '__tibzharuk_wants option trim' -l compress-threads -x -d 'threads for each compressed output, 1 to 64'
complete -c tibzharuk -n '__tibzharuk_wants option trim' -l decompressor -x -a 'bgzip gzip' -d 'bgzip or gzip'
complete -c tibzharuk -n '__tibzharuk_wants option trim' -l progress -d 'print how far the inputs were read'
complete -c tibzharuk -n '__tibzharuk_wants option trim' -l no-progress -d 'don\'t print it, even on a terminal'
complete -c tibzharuk -n '__tibzharuk_wants option trim' -l program -rF -d 'the program that trims'
complete -c tibzharuk -n '__tibzharuk_wants option trim' -s h -l help -d 'this text'
complete -c tibzharuk -n '__tibzharuk_wants option trim' -l dry-run -d 'print what would be started, and start nothing'
complete -c tibzharuk -n '__tibzharuk_wants option trim' -s V -l version -d 'the versions of this command and of the program'
complete -c tibzharuk -n '__tibzharuk_wants option trim' -l encoding -x -a 'sanger illumina13 solexa' -d 'what quality bytes are'
complete -c tibzharuk -n '__tibzharuk_wants option trim' -l no-name-check -d 'pair mates whatever their names, and whatever the read numbers in the first titles of both sides'
complete -c tibzharuk -n '__tibzharuk_wants option trim' -l sync -d 'wait until the outputs are on the disk, which is done for files in any case'
complete -c tibzharuk -n '__tibzharuk_wants option trim' -l block -x -d 'pairs that are trimmed and written at a time, 1 to 65536'
complete -c tibzharuk -n '__tibzharuk_wants option trim' -l depth -x -d 'blocks that may wait for each thread, 1 to 64'
complete -c tibzharuk -n '__tibzharuk_wants option trim' -l chunk -x -d 'bytes read at a time, 1 to 1048576'
complete -c tibzharuk -n '__tibzharuk_wants step PE' -a 'ILLUMINACLIP: LEADING: TRAILING: SLIDINGWINDOW: CROP: HEADCROP: AVGQUAL: MINLEN: TOPHRED33'
complete -c tibzharuk -n '__tibzharuk_wants option PE' -o threads -x
complete -c tibzharuk -n '__tibzharuk_wants option PE' -o phred33
complete -c tibzharuk -n '__tibzharuk_wants option PE' -o phred64
complete -c tibzharuk -n '__tibzharuk_wants option PE' -o trimlog -rF
complete -c tibzharuk -n '__tibzharuk_wants option PE' -o summary -rF
complete -c tibzharuk -n '__tibzharuk_wants option PE' -o quiet
complete -c tibzharuk -n '__tibzharuk_wants option PE' -o validatePairs
complete -c tibzharuk -n '__tibzharuk_wants option PE' -o basein -rF
complete -c tibzharuk -n '__tibzharuk_wants option PE' -o baseout -rF
complete -c tibzharuk -n '__tibzharuk_wants option PE' -l out -rF -d 'names all outputs that have no name of their own'
complete -c tibzharuk -n '__tibzharuk_wants option PE' -l checksums -d 'pREFIX.sha256 too, with the checksums of all outputs that are files, for sha256sum -c in its directory'
complete -c tibzharuk -n '__tibzharuk_wants option PE' -l no-report -d '--out names no report and no page'
complete -c tibzharuk -n '__tibzharuk_wants option PE' -l summary -rF -d 'the summary, as a file too'
complete -c tibzharuk -n '__tibzharuk_wants option PE' -l trimlog -rF -d 'a line for each read'
complete -c tibzharuk -n '__tibzharuk_wants option PE' -l report -rF -d 'counts of pairs, reads, bases and steps as JSON, with the names of these files, what cutadapt removed, and the call, programs and inputs'
complete -c tibzharuk -n '__tibzharuk_wants option PE' -l html -rF -d 'the report as a page for the browser'
complete -c tibzharuk -n '__tibzharuk_wants option PE' -l adapters -rF -a 'auto truseq nextera smallrna' -d '3\' adapters'
complete -c tibzharuk -n '__tibzharuk_wants option PE' -l poly-g -d 'remove the G\'s that NextSeq and NovaSeq write at the ends of reads where they see nothing, and other poor ends'
complete -c tibzharuk -n '__tibzharuk_wants option PE' -l cutadapt -x -d 'more options for cutadapt, such as \'-e 0.2 -O 5\''
complete -c tibzharuk -n '__tibzharuk_wants option PE' -l cutadapt-report -rF -d 'what cutadapt counted, as JSON'
complete -c tibzharuk -n '__tibzharuk_wants option PE' -l cutadapt-log -rF -d 'what cutadapt printed, which MultiQC reads'
complete -c tibzharuk -n '__tibzharuk_wants option PE' -l need-end -d 'refuse a BGZF file without its end block, which may be cut'
complete -c tibzharuk -n '__tibzharuk_wants option PE' -l pairs -x -d 'trim only the first N pairs of all lanes together, to try settings'
complete -c tibzharuk -n '__tibzharuk_wants option PE' -l threads -x -d 'threads, 1 to 64'
complete -c tibzharuk -n '__tibzharuk_wants option PE' -l compressor -x -a 'bgzip pigz gzip igzip' -d 'bgzip, pigz, gzip or igzip'
complete -c tibzharuk -n '__tibzharuk_wants option PE' -l level -x -d 'how hard to compress'
complete -c tibzharuk -n '__tibzharuk_wants option PE' -l compress-threads -x -d 'threads for each compressed output, 1 to 64'
complete -c tibzharuk -n '__tibzharuk_wants option PE' -l decompressor -x -a 'bgzip gzip' -d 'bgzip or gzip'
complete -c tibzharuk -n '__tibzharuk_wants option PE' -l progress -d 'print how far the inputs were read'
complete -c tibzharuk -n '__tibzharuk_wants option PE' -l no-progress -d 'don\'t print it, even on a terminal'
complete -c tibzharuk -n '__tibzharuk_wants option PE' -l program -rF -d 'the program that trims'
complete -c tibzharuk -n '__tibzharuk_wants option PE' -l help -d 'this text'
complete -c tibzharuk -n '__tibzharuk_wants option PE' -l dry-run -d 'print what would be started, and start nothing'
complete -c tibzharuk -n '__tibzharuk_wants option PE' -l version -d 'the versions of this command and of the program'
complete -c tibzharuk -n '__tibzharuk_wants option PE' -l encoding -x -a 'sanger illumina13 solexa' -d 'what quality bytes are'
complete -c tibzharuk -n '__tibzharuk_wants option PE' -l no-name-check -d 'pair mates whatever their names, and whatever the read numbers in the first titles of both sides'
complete -c tibzharuk -n '__tibzharuk_wants option PE' -l sync -d 'wait until the outputs are on the disk, which is done for files in any case'
complete -c tibzharuk -n '__tibzharuk_wants option PE' -l block -x -d 'pairs that are trimmed and written at a time, 1 to 65536'
complete -c tibzharuk -n '__tibzharuk_wants option PE' -l depth -x -d 'blocks that may wait for each thread, 1 to 64'
complete -c tibzharuk -n '__tibzharuk_wants option PE' -l chunk -x -d 'bytes read at a time, 1 to 1048576'
complete -c tibzharuk -n '__tibzharuk_wants option page' -s h -l help -d 'show this help message and exit'
complete -c tibzharuk -n '__tibzharuk_wants option page' -l sample -x -d 'the title of the page'
complete -c tibzharuk -n '__tibzharuk_wants option page' -l cutadapt -x -d 'how cutadapt removed adapters before, such as its options'
complete -c tibzharuk -n '__tibzharuk_wants option page' -l lane -x -d 'a lane of the sample, and its report'
complete -c tibzharuk -n '__tibzharuk_wants option sum' -s h -l help -d 'show this help message and exit'
complete -c tibzharuk -n '__tibzharuk_wants option sum' -l paired1 -rF -d 'the name of the joined forward paired'
complete -c tibzharuk -n '__tibzharuk_wants option sum' -l unpaired1 -rF -d 'the name of the joined forward unpaired'
complete -c tibzharuk -n '__tibzharuk_wants option sum' -l paired2 -rF -d 'the name of the joined reverse paired'
complete -c tibzharuk -n '__tibzharuk_wants option sum' -l unpaired2 -rF -d 'the name of the joined reverse unpaired'
complete -c tibzharuk -n '__tibzharuk_wants option sum' -l trimlog -rF -d 'the name of the joined trim log'
complete -c tibzharuk -n '__tibzharuk_wants option sum' -l summary -rF -d 'write the summary of all to this file'
complete -c tibzharuk -n '__tibzharuk_wants option samples' -s h -l help -d 'show this help message and exit'
complete -c tibzharuk -n '__tibzharuk_wants option samples' -l by-run -d 'begin the name of each lane with that of its run'
complete -c tibzharuk -n '__tibzharuk_wants option workflow' -s h -l help -d 'show this help message and exit'
complete -c tibzharuk -n '__tibzharuk_wants option selftest' -s h -l help -d 'show this help message and exit'
complete -c tibzharuk -n '__tibzharuk_wants option selftest' -l html -rF -d 'write the record as a page to sign'
complete -c tibzharuk -n '__tibzharuk_wants option selftest' -l json -rF -d 'write the record as JSON'
complete -c tibzharuk -n '__tibzharuk_wants option selftest' -l reads -rF -d 'compare the trimming of these reads, forward and reverse, too'
complete -c tibzharuk -n '__tibzharuk_wants option selftest' -l pairs -x -d 'how many of their first pairs are compared'
complete -c tibzharuk -n '__tibzharuk_wants option selftest' -l encoding -x -a 'sanger illumina13 solexa' -d 'what their quality bytes are'
complete -c tibzharuk -n '__tibzharuk_wants option selftest' -l matrix -d 'only print which promise of the documents rests on what'
# end of command-for-fish
