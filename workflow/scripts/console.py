"""What a run prints: a line for each job that ends, in place of Snakemake's dozen.

Snakemake's own lines of jobs and of progress go to its log file only (`.snakemake/log`). Its errors, what
it says of the run, and what it prints in all other cases are as always.
"""

import sys
import threading
import time

QUIET = ("job_info", "job_finished", "progress")
# Lines that come with each job, and one that would come after the line on all samples.
NOISE = ("Select jobs to execute...", "Removing temporary output ", "Complete log: ")


class Console:
    """Takes Snakemake's messages before its own handler does, which makes records of them, and hides some of these."""

    def __init__(self, say, is_dry_run):
        self.say, self.is_dry_run = say, is_dry_run
        self.jobs, self.last = {}, ""
        self.now = threading.local()

    def take(self, message):
        level = message.get("level")
        self.now.is_quiet = level in QUIET or str(message.get("msg")).startswith(NOISE)
        if level == "job_info":
            named = message.get("msg") or f"{message.get('name')} {message.get('wildcards') or ''}".strip()
            self.jobs[message.get("jobid")] = named
            if self.is_dry_run:
                self.tell(f"would run: {named}")
        elif level == "job_finished":
            self.last = self.jobs.get(message.get("jobid"), "a job")
        elif level == "progress":
            self.tell(f"{time.strftime('%H:%M:%S')} {message.get('done')} of {message.get('total')} done: {self.last}")

    def tell(self, line):
        quiet, self.now.is_quiet = self.now.is_quiet, False
        self.say(line)
        self.now.is_quiet = quiet

    def is_shown(self, record):
        return not getattr(self.now, "is_quiet", False)


def install(logger):
    """Has Snakemake print so. Later versions than 7 may have another logger; then all is as it was."""
    try:
        handlers, stream = logger.log_handler, logger.stream_handler
    except AttributeError:
        return
    console = Console(logger.logger.warning, stream.stream is sys.stdout)
    handlers.insert(0, console.take)
    stream.addFilter(console.is_shown)
