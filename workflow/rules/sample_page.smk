# Makes the page of one sample from its report. This takes less than a second, so it runs on the host that runs Snakemake.


localrules:
    sample_page,


rule sample_page:
    message:
        "make the page of {wildcards.sample}"
    input:
        report=REPORT,
        lanes=parts(".json"),
    output:
        SAMPLE_PAGE,
    log:
        "logs/pages/{sample}.log",
    params:
        lanes=lanes_as_options,
        setup=SETUP,
    threads: 1
    shell:
        "{params.setup.tibzharuk:q} page --sample {wildcards.sample:q} {params.lanes} {input.report:q} > {output:q} 2> {log:q}"
