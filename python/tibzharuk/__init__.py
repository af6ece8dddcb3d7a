"""Tibzharuk's command: `tibzharuk trim`, `PE`, `page`, `sum`, `samples` and
`workflow`.

    command     the command: which part does what the first word asks for
    pe          a line of Trimmomatic's paired-end mode, as the command `PE`
    trimmomatic that line in the words of `trim`, and counts in Trimmomatic's form
    trim/       trimming of compressed files, all outputs or none
    page        the page of a report
    sum         the sum of reports
    samples     the table of samples
    workflow    a directory for the workflow
    report/     reports, and the parts of their page
    multiqc/    the plugin of MultiQC

Only the standard library is used, of Python 3.8 or later. What a subcommand needs is imported when
it is called, since the import takes most of the time of a short run.
"""

VERSION = "2.0.0"
