"""NAME
    tibzharuk trim - trims plain or compressed FASTQ files, all outputs or none

SYNOPSIS
    tibzharuk trim -1 FILE.. -2 FILE.. --out PREFIX [OPTIONS] STEPS..
    tibzharuk trim -i FILE.. --out PREFIX [OPTIONS] STEPS..
    tibzharuk trim -1 FILE.. -2 FILE.. --interleaved SAM --no-unpaired \\
            --through MAPPER [OPTIONS] STEPS..

DESCRIPTION
    Decompresses the inputs, trims them with fq_prog and compresses the outputs,
    all at the same time, through pipes. Either all outputs are made, or none:
    each is written under a hidden name beside its own, and gets its own name
    only after every program has ended well and all bytes are on the disk. Until
    then a file of that name stays as it was.

    An input whose name ends in .gz must be a complete gzip file, of one member
    or of several. Any other input may be gzip or plain. Files of several lanes
    are read in the given order, as if they were one. Both sides need the same
    number of files. An input may be a pipe, even one whose writer comes later,
    but the command can't see whether that writer failed. The name - is standard
    input.

    bgzip decompresses if it is installed, else gzip. igzip and pigz never do,
    because they end with status 0 on some damaged files.

    An output whose name ends in .gz is compressed. Others are plain. A device
    or a pipe, such as /dev/null, is written directly, and the name - is
    standard output.

    With --adapters, --poly-g or --cutadapt, cutadapt trims first, in the same
    pass. fq_prog then counts and trims what cutadapt passed on. If no adapters
    are named, but more than 1 % of the first 10,000 pairs hold a known one, a
    warning says so. With --adapters auto that one is removed. A line on
    standard error and the report say which, or none. A pipe can't be looked at
    beforehand, so auto refuses it.

    The summary goes to standard output, only at status 0. If an output is on
    standard output, the summary goes to standard error, or only to the file
    that --summary names.

INPUTS AND OUTPUTS
    -1 FILE.., -2 FILE..   forward and reverse reads; a file for each lane, in
                           the same order on both sides
    -i FILE..              interleaved reads, forward first; a file for each
                           lane
    --out PREFIX           names all outputs that have no name of their own:
                           PREFIX.r1.paired.fastq.gz,
                           PREFIX.r1.unpaired.fastq.gz,
                           PREFIX.r2.paired.fastq.gz,
                           PREFIX.r2.unpaired.fastq.gz, PREFIX.json (the report)
                           and PREFIX.html (its page)
    --checksums            PREFIX.sha256 too, with the checksums of all outputs
                           that are files, for sha256sum -c in its directory.
                           The report then has those of the inputs
    --no-unpaired          unpaired reads go to /dev/null, unless they are named
    --no-report            --out names no report and no page
    --paired1 OUT          forward reads whose mate survives too
    --unpaired1 OUT        forward reads whose mate is dropped
    --paired2 OUT          reverse reads whose mate survives too
    --unpaired2 OUT        reverse reads whose mate is dropped
    --interleaved OUT      both mates of a pair in turn, in place of --paired1
                           and --paired2
    --through 'COMMAND'    what writes the file of --interleaved: a mapper,
                           which reads the pairs from its standard input, to
                           their end. If it fails, or anything else does, there
                           is no file. bash runs it with pipefail, and what it
                           prints on standard error is printed there
    --expect-pairs         refuse that file, SAM or BAM, unless it has one
                           primary record of each mate that the command was
                           given, mapped or not. samtools counts those of BAM
    --summary OUT          the summary, as a file too
    --trimlog OUT          a line for each read (see fq_prog PE --help)
    --report OUT           counts of pairs, reads, bases and steps as JSON, with
                           the names of these files, what cutadapt removed, and
                           the call, programs and inputs
    --html OUT             the report as a page for the browser

OPTIONS
    Defaults are in parentheses.

    --adapters WHAT        3' adapters: auto, truseq, nextera or smallrna, as
                           Illumina publishes them (auto takes the one that the
                           first reads hold); a FASTA file for both sides; one
                           SEQUENCE for both; or SEQUENCE,SEQUENCE for the
                           forward and the reverse side. Given again, it adds
                           others
    --poly-g               remove the G's that NextSeq and NovaSeq write at the
                           ends of reads where they see nothing, and other
                           poor ends (--nextseq-trim=20 of cutadapt)
    --cutadapt 'OPTIONS'   more options for cutadapt, such as '-e 0.2 -O 5'
    --cutadapt-report OUT  what cutadapt counted, as JSON
    --cutadapt-log OUT     what cutadapt printed, which MultiQC reads
    --need-end             refuse a BGZF file without its end block, which may
                           be cut (without this option there is a warning)
    --pairs N              trim only the first N pairs of all lanes together,
                           to try settings. The report and a warning say so
    -t N, --threads N      threads, 1 to 64 (as many as there are processors)
    --compressor NAME      bgzip, pigz, gzip or igzip (auto: the first of bgzip,
                           pigz and gzip that is installed, and for --level 1
                           igzip before these)
    --level N              how hard to compress: 1 is fast, 9 makes small files
                           (bgzip 3; igzip 2, and at most 3; the others 6)
    --compress-threads N   threads for each compressed output, 1 to 64 (see
                           below)
    --decompressor NAME    bgzip or gzip (auto: bgzip if it is installed)
    --progress             print how far the inputs were read: on a terminal,
                           where this is the default, one line that changes;
                           elsewhere a line each minute
    --no-progress          don't print it, even on a terminal
    --program PATH         the program that trims (the fq_prog on the search
                           path)
    -h, --help             this text
    --dry-run              print what would be started, and start nothing
    -V, --version          the versions of this command and of the program

    Six options are those of fq_prog (see fq_prog PE --help):

    --encoding NAME        what quality bytes are: sanger, illumina13 or solexa
                           (sanger)
    --no-name-check        pair mates whatever their names, and whatever the
                           read numbers in the first titles of both sides
    --sync                 wait until the outputs are on the disk, which is
                           done for files in any case
    --block N              pairs that are trimmed and written at a time, 1 to
                           65536; not with --interleaved
    --depth N              blocks that may wait for each thread, 1 to 64
    --chunk N              bytes read at a time, 1 to 1048576

    A word of a step's form, such as MINLEN:36, begins the steps. A file of such
    a name is ./MINLEN:36. Everything after -- is a step, too.

HOW MANY PROCESSORS A RUN USES
    With --threads N each paired output is compressed by N/2 threads, an
    interleaved one by N, and each unpaired one by N/4, but at least by one.
    fq_prog and cutadapt get N threads each, and each side has a decompressor.
    (Without --threads, fq_prog has 4.) Through the pipes the fast programs wait
    for the slow ones.

    Reserve N processors on a cluster. A run can keep more than N busy if it
    finds them idle, but it runs with fewer, too. On 4 idle processors, runs
    over 400,000 pairs of 2 x 150 bases kept 2.5 to 2.8 of them busy with
    --threads 1 or 2, and 3.5 to 3.7 with --threads 4. With --adapters they kept
    1.9, 2.9 and 3.6 of them busy with --threads 1, 2 and 4. The reads that are
    written are the same for each N.

EXIT STATUS
    If fq_prog fails, the command ends with the same status, and prints the line
    of fq_prog with its reason (--explain), in which the inputs and outputs have
    the names that you gave. At each status but 0 the last line on standard
    error says why (at 1 there may be more), and no output is made. If an output
    is a stream, the line also says that what was written to it is incomplete.
    Lines that begin with 'tibzharuk: warning:' say what may be wrong with the
    inputs, at any status.
    0      success
    1      unknown, missing or wrong arguments; a program that isn't installed
    2      a bad encoding, step or name, or a number that fq_prog refuses; a
           file that is given twice; options that cutadapt refuses
    3      a fault in an input, also if the file can't be decompressed to its
           end; sides that are exchanged, or the same
    4      a file could not be read, compressed or written to its end
    5      out of memory
    6      threads could not be started
    128+n  stopped by signal n, such as 130 by Ctrl-C; no child process, pipe or
           hidden file is left

    kill -9 leaves hidden files, such as .OUT.tibzharuk.5d3f00a1, and if it
    comes while outputs get their names, some have theirs. The children end with
    it, cutadapt and the programs of --through a moment later.

EXAMPLES
    tibzharuk trim -1 s_L00?_R1.fq.gz -2 s_L00?_R2.fq.gz --out s \\
        --adapters truseq \\
        LEADING:3 TRAILING:3 SLIDINGWINDOW:4:15 MINLEN:36

    tibzharuk trim -1 s_R1.fq.gz -2 s_R2.fq.gz --no-unpaired \\
        --interleaved s.bam \\
        --through 'bwa mem -p genome.fa - | samtools sort -o - -' \\
        SLIDINGWINDOW:4:15 MINLEN:36
"""

from typing import Sequence


def main(words: Sequence[str]) -> int:
    """Returns the status."""
    from . import run
    return run.main(words, __doc__ or "")
