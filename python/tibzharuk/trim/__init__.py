"""Trimming of plain or compressed files, all outputs or none.

    command     the manual, and what the command calls
    arguments   the arguments of a run
    steps       the words of steps
    tools       compressors and decompressors: which are safe, their arguments and messages
    look        what a run looks at before it starts, by means of
    checks      what inputs show before a run
    files       inputs and outputs, hidden names and final names
    plan        what is started: processes and pipes, from arguments alone
    verdict     why a run failed, from how its processes ended
    run         one run: it starts the plan, follows it, and ends as the verdict says
    children    programs that were started, their pipes, and what they print
    progress    how much of the inputs was read
    cutadapt    cutadapt, which removes adapters in the same pass
    adapters    what --adapters names
    fasta       files of adapters
    known_adapters, illumina_adapters.fa
                adapters that have a name here, and whether reads hold them
    whole_lines a program that copies the text of a lane as cutadapt takes it
    first_records
                a program that copies the first records of a text, for --pairs
    checksums   the file of checksums of all outputs
    report      the report, with the names of the user's files, and its page
    faults      how a run ends that can't go on
"""
