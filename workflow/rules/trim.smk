# Trims samples: all lanes of one in one call of tibzharuk trim, which removes adapters too if there are any in the settings.

# What a job does, for a sample or for a lane. Snakemake trims again if this text changes, so it is the same for all settings.
TRIM = """
    exec 2> {log:q}
    version=$({params.setup.program:q} --version)
    printf '%s\\n' "program: ${{version%%$'\\n'*}}" {params.setup.settings} > {output.settings:q}
    more=({params.adapters})
    if [ "${{#more[@]}}" -gt 0 ]; then more+=(--cutadapt-report {params.cutadapt:q}.json --cutadapt-log {params.cutadapt:q}.log); fi
    if [ {params.setup.trim_logs} = True ]; then more+=(--trimlog {params.trimlog:q}); fi
    {params.setup.tibzharuk:q} trim {params.inputs} \\
        --paired1 {output.paired1:q} --unpaired1 {output.unpaired1:q} \\
        --paired2 {output.paired2:q} --unpaired2 {output.unpaired2:q} \\
        --summary {output.summary:q} --report {output.report:q} "${{more[@]}}" --program {params.setup.program:q} \\
        --threads {threads} {params.options} -- {params.steps} > /dev/null
    """


rule trim:
    message:
        "trim {wildcards.sample}"
    input:
        r1=lanes("r1"),
        r2=lanes("r2"),
        adapters=[ADAPTER_FILE] if ADAPTER_FILE else [],
    output:
        **{f"{kind}{read[1]}": TRIMMED.format(sample="{sample}", read=read, kind=kind) for read, kind in READS},
        summary=SUMMARY,
        report=REPORT,
        settings=SETTINGS,
        **({"cutadapt": f"{CUTADAPT}.json", "cutadapt_log": f"{CUTADAPT}.log"} if ADAPTERS else {}),
        **({"trimlog": TRIM_LOG} if config["trim_logs"] else {}),
    log:
        "logs/trim/{sample}.log",
    wildcard_constraints:
        sample=one_of(sample for sample in SAMPLES if sample not in SCATTERED),
    params:
        inputs=inputs_as_options,
        adapters=quoted(["--adapters", ADAPTERS]) if ADAPTERS else "",
        options=quoted(OPTIONS),
        steps=quoted(config["steps"].split()),
        cutadapt=CUTADAPT,
        trimlog=TRIM_LOG,
        setup=SETUP,
    threads: config["trim"]["threads"]
    resources:
        mem_mb=config["trim"]["memory_mb"],
        runtime=config["trim"]["minutes"],
    shell:
        TRIM
