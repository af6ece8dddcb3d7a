"""The check of an installation, and its record.

    command     `tibzharuk selftest`
    cases       what is run: the words, the inputs and what must come of them
    inputs      the inputs of the cases, made from the reads that are installed
    checks      what a check is, and the verdict on one run and on all
    runs        runs the installed command
    recorded    the report of a run, and its checksums
    machine     the machine, the programs and their versions
    own_reads   the reads of a laboratory, by the command and by the slow program
    slow        the slow program, which shares no code with the command
    record      the record as text, as a page and as JSON
    matrix      which promise rests on what
"""
