# With `scatter: lanes`: a job for each lane of a sample with several, and then one that joins what they have made. The reads
# of a lane are removed when they are joined. Its report stays, for the page of the sample.


rule trim_lane:
    message:
        "trim {wildcards.sample}, lane {wildcards.lane}"
    input:
        r1=lane("r1"),
        r2=lane("r2"),
        adapters=[ADAPTER_FILE] if ADAPTER_FILE else [],
    output:
        **{f"{kind}{read[1]}": temp(f"{LANE}.{read}.{kind}.fastq.gz") for read, kind in READS},
        summary=f"{LANE}.summary",
        report=f"{LANE}.json",
        settings=f"{LANE}.settings",
        **({"cutadapt": f"{LANE}.cutadapt.json", "cutadapt_log": f"{LANE}.cutadapt.log"} if ADAPTERS else {}),
        **({"trimlog": temp(f"{LANE}.log.gz")} if config["trim_logs"] else {}),
    log:
        "logs/trim/{sample}/{sample}_{lane}.log",
    wildcard_constraints:
        sample=one_of(SCATTERED),
    params:
        inputs=inputs_as_options,
        adapters=quoted(["--adapters", ADAPTERS]) if ADAPTERS else "",
        options=quoted(OPTIONS),
        steps=quoted(config["steps"].split()),
        cutadapt=f"{LANE}.cutadapt",
        trimlog=f"{LANE}.log.gz",
        setup=SETUP,
    threads: config["trim"]["threads"]
    resources:
        mem_mb=config["trim"]["memory_mb"],
        runtime=config["trim"]["minutes"],
    shell:
        TRIM


# A .gz file may have several members, so `cat` joins them. The joined files are on the disk before those of the lanes go.
rule join_lanes:
    message:
        "join the lanes of {wildcards.sample}"
    input:
        **{f"{kind}{read[1]}": parts(f".{read}.{kind}.fastq.gz") for read, kind in READS},
        reports=parts(".json"),
        settings=parts(".settings"),
        trimlog=parts(".log.gz") if config["trim_logs"] else [],
    output:
        **{f"{kind}{read[1]}": TRIMMED.format(sample="{sample}", read=read, kind=kind) for read, kind in READS},
        summary=SUMMARY,
        report=REPORT,
        settings=SETTINGS,
        **({"trimlog": TRIM_LOG} if config["trim_logs"] else {}),
    log:
        "logs/trim/{sample}/join.log",
    wildcard_constraints:
        sample=one_of(SCATTERED),
    params:
        trimlog=TRIM_LOG,
        setup=SETUP,
    threads: 1
    resources:
        mem_mb=config["trim"]["memory_mb"],
        runtime=config["trim"]["minutes"],
    shell:
        """
        exec 2> {log:q}
        more=()
        if [ {params.setup.trim_logs} = True ]; then
            more=(--trimlog {params.trimlog:q})
            cat {input.trimlog:q} > "${{more[1]}}"
        fi
        cat {input.paired1:q} > {output.paired1:q}
        cat {input.unpaired1:q} > {output.unpaired1:q}
        cat {input.paired2:q} > {output.paired2:q}
        cat {input.unpaired2:q} > {output.unpaired2:q}
        {params.setup.tibzharuk:q} sum --paired1 {output.paired1:q} --unpaired1 {output.unpaired1:q} \\
            --paired2 {output.paired2:q} --unpaired2 {output.unpaired2:q} "${{more[@]}}" \\
            --summary {output.summary:q} {input.reports:q} > {output.report:q}
        cp {input.settings[0]:q} {output.settings:q}
        sync {output.paired1:q} {output.unpaired1:q} {output.paired2:q} {output.unpaired2:q} {output.report:q} "${{more[@]:1}}"
        """
