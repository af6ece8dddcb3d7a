#!/usr/bin/env cwl-runner
cwlVersion: v1.2
class: CommandLineTool
label: Trims paired-end FASTQ reads (Tibzharuk)
doc: |
  Trims the pairs of compressed or plain FASTQ files by a list of steps, such as LEADING:3 TRAILING:3 SLIDINGWINDOW:4:15 MINLEN:36.
  Either all outputs are made, or none. A sample of several lanes has a file for each lane, in the same order on both sides.

$namespaces:
  edam: http://edamontology.org/
  s: https://schema.org/
# Sequence trimming.
edam:has_function: http://edamontology.org/operation_3192
s:license: [https://spdx.org/licenses/MIT, https://spdx.org/licenses/Apache-2.0]

baseCommand: [tibzharuk, trim]

hints:
  # The image of `make image`, after it was loaded. It is in no registry.
  DockerRequirement:
    dockerImageId: tibzharuk:2.0.0
  SoftwareRequirement:
    packages:
      tibzharuk:
        version: ["2.0.0"]
  ResourceRequirement:
    coresMin: $(inputs.threads)
    ramMin: 1000

# The inputs are FASTQ (edam:format_1930), too. They have no `format` here, since engines then refuse files that name none.
inputs:
  sample:
    type: string
    doc: how the names of the outputs begin
  forward:
    doc: forward reads, a file for each lane
    type:
      type: array
      items: File
      inputBinding: {prefix: "-1"}
    inputBinding: {position: 1}
  reverse:
    doc: reverse reads, in the order of the forward ones
    type:
      type: array
      items: File
      inputBinding: {prefix: "-2"}
    inputBinding: {position: 2}
  adapters:
    doc: 3' adapters, which cutadapt removes first; truseq, nextera, smallrna, auto, a FASTA file, or SEQUENCE[,SEQUENCE]
    type: ["null", File, string]
    inputBinding: {prefix: --adapters, position: 4}
  encoding:
    doc: what quality bytes are (sanger)
    type:
      - "null"
      - type: enum
        # made by packaging/made.py: encodings
        symbols: [sanger, illumina13, solexa]
        # end of encodings
    inputBinding: {prefix: --encoding, position: 4}
  no_name_check:
    doc: takes mates with different names as pairs
    type: boolean?
    inputBinding: {prefix: --no-name-check, position: 4}
  need_end:
    doc: refuses a file whose BGZF lacks its end block, since it may be cut
    type: boolean?
    inputBinding: {prefix: --need-end, position: 4}
  threads:
    doc: threads, and the processors that are reserved
    type: int
    default: 4
    inputBinding: {prefix: --threads, position: 4}
  level:
    doc: how hard to compress, 1 to 9
    type: int?
    inputBinding: {prefix: --level, position: 4}
  steps:
    doc: the steps in their order
    type: string[]
    inputBinding: {position: 101}

# With ./ before it, a name may begin with a dash.
arguments:
  - {prefix: --paired1, valueFrom: ./$(inputs.sample).r1.paired.fastq.gz, position: 3}
  - {prefix: --unpaired1, valueFrom: ./$(inputs.sample).r1.unpaired.fastq.gz, position: 3}
  - {prefix: --paired2, valueFrom: ./$(inputs.sample).r2.paired.fastq.gz, position: 3}
  - {prefix: --unpaired2, valueFrom: ./$(inputs.sample).r2.unpaired.fastq.gz, position: 3}
  - {prefix: --report, valueFrom: ./$(inputs.sample).json, position: 3}
  - {valueFrom: "--", position: 100}

stdout: $(inputs.sample).summary

outputs:
  forward_paired: {type: File, format: edam:format_1930, outputBinding: {glob: $(inputs.sample).r1.paired.fastq.gz}}
  forward_unpaired: {type: File, format: edam:format_1930, outputBinding: {glob: $(inputs.sample).r1.unpaired.fastq.gz}}
  reverse_paired: {type: File, format: edam:format_1930, outputBinding: {glob: $(inputs.sample).r2.paired.fastq.gz}}
  reverse_unpaired: {type: File, format: edam:format_1930, outputBinding: {glob: $(inputs.sample).r2.unpaired.fastq.gz}}
  report: {type: File, format: edam:format_3464, outputBinding: {glob: $(inputs.sample).json}}
  summary: stdout

# What a second try can't mend: arguments, settings, and the inputs themselves. A full disk or a lack of memory may pass.
permanentFailCodes: [1, 2, 3]
temporaryFailCodes: [4, 5, 6]
