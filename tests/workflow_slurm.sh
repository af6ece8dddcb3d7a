#!/usr/bin/env bash
# The workflow on a Slurm that this script starts for itself, with a job for each sample and with one
# for each lane. The samples are those of workflow.sh.
#
# FQ_PROG is the program, crates/fq_prog/out/fq_prog if not set. Status 77, and 'skipped', if a
# package is missing.
set -uo pipefail
. "$(dirname "$0")/common.bash"
PATH=$PATH:/usr/sbin:/sbin
need snakemake multiqc slurmctld slurmd sbatch:slurm-client munged:munge
find_program
. tests/workflow/lab.bash

new_lab cluster
row='slurm'
# Snakemake 8 submits jobs by a plugin, which has a profile of its own.
profile=slurm
case $(snakemake --version) in [0-7].*) ;; *) profile=slurm-v8 ;; esac
if [ "$profile" = slurm-v8 ] && ! snakemake --executor cluster-generic --help > /dev/null 2>&1; then
  echo "$this: slurm: skipped: needs snakemake-executor-plugin-cluster-generic"
elif start_slurm; then
  a_whole_life "$profile"
  jobs=$(find logs/slurm -name 'trim.sample=s4.*.log' | wc -l)
  [ "$jobs" -eq 3 ] || fail "$jobs jobs of Slurm for s4, not 3"
  cluster_scripts
  new_lab cluster_lanes
  by_lane "$profile"
  jobs=$(find logs/slurm -name 'trim_lane.lane=L00?,sample=s1.*.log' | wc -l)
  [ "$jobs" -eq 3 ] || fail "$jobs jobs of Slurm for the lanes of s1, not 3"
  stop_slurm
else
  fail 'it does not start'
fi

end_lab
