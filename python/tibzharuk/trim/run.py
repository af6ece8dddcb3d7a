"""One run, from its start to its end: it starts what `plan` says, follows it, and ends as `verdict`
says."""

import os
import re
import signal
import time
from typing import Any, Dict, List, NoReturn, Optional, Sequence, Tuple

from . import faults, records
from .arguments import CHECKSUMS, Arguments, HelpAsked
from .checks import no_end
from .children import Ended, Family, Pipes
from .cutadapt import KEEPS_BUFFERS, Cutadapt
from .faults import Fault, Stopped, reason, say, signal_name, warn, write_all
from .files import Output, Side, give_names, readable, sides_of, take_names_back, with_names
from .first_records import copied
from .look import files_with_checksums, look_at_files, look_at_reads, take_adapters
from .plan import (COUNTED, CUTADAPT_COUNTED, CUTADAPT_PRINTED, FLAGS, KEPT, PRINTED, TRIMMED, End,
                   Lane, Made, Start, Stream, Word, counter, lane, plan, shown)
from .progress import Progress
from .provenance import ASKED, programs_beside, provenance, sum_of_program, versions
from .report import counts_of, of_call, page_of, sample_name
from .tools import Tools, which
from .verdict import CutadaptEnd, Ends, SideEnd, needs_more, verdict, why_of_command

SECONDS_TO_READ_ON = 5
NO_END = b"EOF marker is absent"    # what bgzip prints


class Run:
    """A run of the program over compressed files."""

    def __init__(self, arguments: Arguments) -> None:
        self.arguments = arguments
        self.tools = Tools(arguments)
        self.sample = sample_name(arguments.outputs)
        self.sides, self.outputs = look_at_files(arguments, self.tools)
        if arguments.asks_auto():
            take_adapters(arguments, self.sides)
        self.cutadapt: Optional[Cutadapt] = None
        if arguments.uses_cutadapt():
            self.cutadapt = Cutadapt(arguments, self.sample)
        self.hand_over()
        # How far the last pairs of --pairs are isn't known.
        inputs = [] if arguments.pairs else [each for side in self.sides for each in side.inputs]
        self.progress = Progress(arguments.progress, inputs)
        # How the program and cutadapt ended, by their roles.
        self.ends: Dict[str, Ended] = {}
        self.writer: Optional[Fault] = None     # of an output, after the program had written it
        self.without_end: List[str] = []        # inputs that may be cut
        self.beside: List[str] = []             # programs whose versions the report has
        self.program_sum: Optional[str] = None
        # What is written at once, and can't be taken back.
        self.streams = [each.name for each in self.outputs.values()
                        if each.is_device and each.name != os.devnull]

    def hand_over(self) -> None:
        """Leaves plain files to the program."""
        for side in () if self.cutadapt else self.sides:
            side.hand_over()

    def go(self) -> None:
        """Makes all outputs, or none."""
        if self.progress.is_terminal and self.tools.is_slow and self.has_gz_outputs():
            say("bgzip isn't installed, so this takes several times as long (Debian: tabix)")
        self.family = Family(self.tick, 0.5 if self.progress.is_on or self.cutadapt else 5)
        self.pipes = Pipes(self.family)
        try:
            self.start_all()
            # The children work meanwhile.
            look_at_reads(self.arguments, self.sides)
            if self.makes_report():
                self.ask_for_versions()
            self.follow()
            self.judge()
            self.finish()
        except Stopped:
            self.clean()
            self.stop(self.family.first_signal or signal.SIGTERM)
        except Fault as fault:
            # Before the others no read is written.
            if self.streams and fault.status > 2:
                raise Fault(fault.status, f"{fault.line}; {self.what_is_left()}")
            raise
        finally:
            self.clean()

    def tick(self) -> None:
        """Called each time that something happens, and at least every few seconds."""
        self.progress.tick()
        child = self.family.find("cutadapt")
        if child and self.cutadapt:
            self.cutadapt.watch(child)

    def makes_report(self) -> bool:
        return "report" in self.outputs or "html" in self.outputs

    def has_gz_outputs(self) -> bool:
        return any(output.is_compressed for output in self.outputs.values())

    # The start.

    def plan(self) -> List[Start]:
        options = self.cutadapt.options if self.cutadapt else None
        return plan(self.arguments, self.tools, self.sides, self.outputs, options)

    def start_all(self) -> None:
        """`next_end` has the order of the plan."""
        for output in self.outputs.values():
            output.hide()
        for side in self.sides:
            if not side.is_direct:
                self.pipes.make(side.name, True, True)
            side.current().open()
        if self.cutadapt:
            self.pipes.make(TRIMMED, False, True)
        if self.arguments.through:
            self.pipes.make("interleaved", True)    # to see whether all of it was read
        for name in KEPT:
            self.pipes.keep_text(name)
        for start in self.plan():
            self.start(start)
        self.pipes.let_go()

    def ask_for_versions(self) -> None:
        """Starts the programs beside fq_prog again, which print their versions, and makes the
        checksum of fq_prog."""
        self.beside = programs_beside(self.sides, self.outputs, self.tools)
        nothing = os.open(os.devnull, os.O_RDONLY)  # not our standard input, which may hold reads
        for name in self.beside:
            self.family.start(ASKED + name, [name, "--version"], nothing)
        os.close(nothing)
        self.program_sum = sum_of_program(self.arguments.program)

    def start(self, start: Start) -> None:
        passed = [self.fd(word) for word in start.words if isinstance(word, (End, Lane))]
        words = [self.text(word) for word in start.words]
        usual = KEEPS_BUFFERS.items() if start.role == "cutadapt" else ()
        self.family.start(start.role, words, self.fd(start.stdin), self.fd(start.stdout),
                          [fd for fd in passed if fd is not None], usual, start.is_users)
        for side in self.sides:
            if side.is_direct and start.role == "program":
                side.current().reader = self.family.children[-1].process.pid

    def text(self, word: Word) -> str:
        """A word as the process gets it."""
        if isinstance(word, (End, Lane)):
            return f"/dev/fd/{self.fd(word)}"
        return self.outputs[word.role].written() if isinstance(word, Made) else word

    def fd(self, stream: Stream) -> Optional[int]:
        if isinstance(stream, End):
            return self.pipes.fd(*stream)
        if isinstance(stream, Made):
            return self.outputs[stream.role].fd
        if isinstance(stream, Lane):
            return next(side.current().fd for side in self.sides
                        if side.current().name == stream.name)
        return None

    def names(self) -> Dict[str, str]:
        """The user's names, by those that the program gets."""
        files = [side.files() for side in self.sides]
        sources = [self.text(Lane(side.names[0])) if side.is_direct
                   else self.pipes.name(side.name, False) for side in self.sides]
        if self.cutadapt:
            sources, files = [self.pipes.name(TRIMMED, False)], [", ".join(files)]
        found = dict(zip(sources, files))
        for role, output in self.outputs.items():
            found[self.pipes.name(role, True) or output.written()] = output.name
        report = self.outputs.get("report") or self.outputs.get("html")
        if report:
            found[self.pipes.name(COUNTED, True)] = report.name
        return found

    def names_for_cutadapt(self) -> Dict[str, str]:
        """The same of cutadapt."""
        found = {self.pipes.name(side.name, False): readable(side.files()) for side in self.sides}
        found.update((self.pipes.name(each, True), "-") for each in (CUTADAPT_COUNTED, TRIMMED))
        return found

    # The end of each child.

    def follow(self) -> None:
        """Follows the children until the program has ended. Ends the run at once if a compressor
        fails."""
        while "program" not in self.ends:
            child = self.family.next_end()
            self.note_end(child.name, child.ended())

    def note_end(self, role: str, end: Ended) -> None:
        side = next((side for side in self.sides if side.name == role), None)
        if side and side.left is not None:
            side.left -= copied(end.said)
        if side and end.status == 0 and side.has_more():
            self.end_lane(side, end)
            side.place += 1
            side.current().open()
            self.start(lane(side, side.place, self.tools.decompressor, self.cutadapt is not None))
        elif side:
            self.end_side(side, end)
        elif role in self.outputs:
            self.end_writer(self.outputs[role], end)
        else:
            self.ends[role] = end
            if role == "cutadapt":
                # Only now: the status of cutadapt is known before the program sees the end.
                self.pipes.close(TRIMMED, True)

    def end_side(self, side: Side, end: Ended) -> None:
        """Closes the pipe of a side, only now that its decompressor has ended. So it is known
        whether the text is complete before another program can see its end."""
        last = side.current()
        self.end_lane(side, end)
        self.pipes.close(side.name, True)
        side.is_whole = end.status == 0
        if not side.is_whole:
            status = 4 if end.is_not_started() else 3
            side.fault = Fault(status, f"cannot read {last.name}: {end.why(last.name)}")

    def end_lane(self, side: Side, end: Ended) -> None:
        """Notes whether a pipe lacked its end. That of a file was looked for before."""
        each = side.current()
        each.close()
        if each.size is None and NO_END in end.said:
            self.without_end.append(each.name)

    def end_writer(self, output: Output, end: Ended) -> None:
        """Ends the run if an output wasn't written."""
        if output.role == "interleaved" and self.arguments.through:
            self.end_command(output, end)
        elif end.status and output.is_device and end.met_closed_pipe():
            raise output.fault("its reader has ended")
        elif end.status:
            raise output.fault(end.why())

    def end_command(self, output: Output, end: Ended) -> None:
        """The same of the user's command. If the program had closed its pipe before, the verdict
        comes first: that a damaged input ended early may be why the command failed."""
        has_more, is_open = self.pipes.left(output.role)
        why = why_of_command(end, not has_more and not is_open, output.is_device)
        if why and is_open:
            raise output.fault(why)
        self.writer = output.fault(why) if why else None

    # The verdict.

    def judge(self) -> None:
        """Ends the run if it failed."""
        if needs_more(self.all_ends()):
            self.read_on()
        ends = self.all_ends()
        fault = verdict(ends)
        if fault and ends.program.status == 1:
            self.progress.wipe()
            write_all(2, ends.program.said)
        if fault and ends.cutadapt and fault is ends.cutadapt.fault:
            self.look_for_record(fault)
        if fault:
            raise fault
        if self.arguments.pairs and self.arguments.pairs < (self.pairs_read() or 0):
            raise Fault(3, "--pairs can't count a record that goes on in the next file")

    def look_for_record(self, fault: Fault) -> None:
        """Reads the inputs again, without cutadapt, and ends the run if the program finds a fault
        in them: it names the file and the record, which cutadapt doesn't."""
        is_stricter = self.cutadapt is None or self.cutadapt.is_stricter(fault.line)
        has_pipes = any(each.size is None for side in self.sides for each in side.inputs)
        if fault.status != 3 or is_stricter or has_pipes:
            return
        self.family.end_all()
        self.family.children.clear()
        for output in self.outputs.values():
            output.forget()
        self.arguments, self.cutadapt = self.arguments.into_nowhere(), None
        self.sides = sides_of(self.arguments)
        self.hand_over()
        self.outputs = {role: Output(role, name)
                        for role, name in self.arguments.outputs_in_order()}
        self.ends.clear()
        self.pipes = Pipes(self.family)
        try:
            self.start_all()
            self.follow()
            self.judge()
        except Fault as found:
            if found.status == 3:
                raise

    def all_ends(self) -> Ends:
        cutadapt = None
        if self.cutadapt:
            child = self.ends.get("cutadapt")
            self.cutadapt.hear(self.names_for_cutadapt(), [side.files() for side in self.sides],
                               self.pipes.text(CUTADAPT_COUNTED), self.pipes.text(CUTADAPT_PRINTED))
            cutadapt = CutadaptEnd(child, self.cutadapt.fault(child), self.cutadapt.passed())
        sides = [SideEnd(side.is_whole, side.fault) for side in self.sides]
        return Ends(self.ends["program"], self.arguments.program, sides,
                    self.counted("Input Read Pairs"), cutadapt, self.names(), self.writer)

    def counted(self, label: str) -> Optional[int]:
        """How many pairs the program read, or kept, as its summary says."""
        found = re.search(rb"^%s: (\d+)$" % label.encode(), self.pipes.text(PRINTED), re.MULTILINE)
        return int(found.group(1)) if found else None

    def pairs_read(self) -> Optional[int]:
        """How many pairs were taken from the inputs."""
        if self.cutadapt:
            return int(self.cutadapt.counted()["read_counts"]["input"])
        return self.counted("Input Read Pairs")

    def read_on(self) -> None:
        """Decompresses the files for some seconds more after a fault in a text."""
        until = time.monotonic() + SECONDS_TO_READ_ON
        self.family.pause = 0.1
        left = {side.name: side for side in self.sides
                if side.current().is_packed and self.family.find(side.name)}
        for name in left:
            self.family.discard(self.pipes.fd(name, False))
        while any(self.family.find(name) for name in left):
            child = self.family.next_end_until(until)
            if child is None:
                return
            side = next((side for side in self.sides if side.name == child.name), None)
            if side:
                self.end_side(side, child.ended())

    # The end, if all is well.

    def finish(self) -> None:
        """Waits until all bytes are on the disk, gives the files their final names, and prints the
        summary. If it can't be printed, the names are taken back."""
        while any(map(self.family.find, [*self.outputs, *(ASKED + name for name in self.beside)])):
            child = self.family.next_end()
            self.note_end(child.name, child.ended())
        if self.writer:
            raise self.writer
        if self.arguments.through:
            self.check_result(self.outputs["interleaved"])
        self.progress.wipe()
        self.warn()
        self.streams.clear()    # they are complete
        texts = self.own_texts()
        with self.family.heeding_signals():
            for role, text in texts.items():
                self.write(self.outputs[role], text)
            if CHECKSUMS in self.outputs:
                self.write_checksums(self.outputs[CHECKSUMS])
            for output in self.outputs.values():
                output.sync()
        named = give_names(self.outputs.values())
        try:
            with self.family.heeding_signals():
                self.print_summary()
        except BaseException:
            take_names_back(named)
            raise
        faults.ignore_signals()

    def check_result(self, output: Output) -> None:
        """Refuses what the user's command made, if it is nothing, or, if the user wants to know,
        not the records of all pairs."""
        pairs = self.counted("Both Surviving") or 0
        if output.fd is None or not output.hidden:
            return
        if pairs and not os.fstat(output.fd).st_size:
            raise output.fault("its command wrote nothing")
        if self.arguments.expects_pairs:
            why = records.why_not(pairs, self.records_in(output))
            if why:
                raise output.fault(why)

    def records_in(self, output: Output) -> Optional[records.Primary]:
        """The primary records of a SAM file, or of one that samtools counts."""
        with open(output.written(), "rb") as file, self.family.heeding_signals():
            if not file.peek().startswith(records.PACKED):
                return records.of_sam(file)
        self.pipes.keep_text(FLAGS)
        self.start(counter(self.tools.threads, output.role))
        self.pipes.let_go()
        end = self.family.next_end().ended()
        if end.status:
            why = with_names(end.why(), {output.written(): output.name})
            raise Fault(4, f"samtools: {why}")
        return records.of_flagstat(self.pipes.text(FLAGS).decode())

    def warn(self) -> None:
        """Says what may be wrong, although all went well."""
        for name in self.arguments.inputs():
            if name in self.without_end:
                no_end(name, self.arguments.needs_end)
        if self.arguments.pairs and self.arguments.pairs == self.pairs_read():
            warn(f"only the first pairs were trimmed (--pairs {self.arguments.pairs})")
        if self.cutadapt and self.cutadapt.removed_all():
            warn("cutadapt removed all pairs")
        elif self.counted("Input Read Pairs") == 0:
            warn("the inputs have no pairs")
        elif self.counted("Input Read Pairs") == self.counted("Dropped"):
            warn("all pairs were dropped")

    def summary(self) -> Tuple[bytes, bytes]:
        """The summary as it is printed, and as it is in its file."""
        printed = self.pipes.text(PRINTED)
        if self.arguments.forms is None:
            return printed, printed
        return self.arguments.forms(printed.decode())

    def print_summary(self) -> None:
        """On standard error if an output is on standard output, and nowhere if the summary also
        gets a file then."""
        is_taken = any(output.is_stdout for output in self.outputs.values())
        if is_taken and "summary" in self.outputs and self.arguments.forms is None:
            return
        is_error = is_taken or self.arguments.forms is not None
        try:
            write_all(2 if is_error else 1, self.summary()[0])
        except OSError as error:
            raise Fault(4, f"cannot print: {reason(error)}")

    def own_texts(self) -> Dict[str, bytes]:
        """What this process writes, by its role."""
        texts = {"summary": self.summary()[1]}
        if self.makes_report():
            is_used = self.cutadapt and self.arguments.removes()
            adapters = self.cutadapt.summary() if self.cutadapt and is_used else None
            counts = counts_of(self.pipes.text(COUNTED))
            texts["report"] = of_call(counts, self.arguments, adapters, self.provenance())
        if "html" in self.outputs:
            texts["html"] = page_of(texts["report"], self.sample)
        if self.cutadapt:
            texts["cutadapt-report"] = self.cutadapt.report()
            texts["cutadapt-log"] = self.cutadapt.log()
        return {role: text for role, text in texts.items() if role in self.outputs}

    def provenance(self) -> Dict[str, Any]:
        """How this run was made, as the report says."""
        inputs = [each for side in self.sides for each in side.inputs]
        sums: Dict[str, str] = {}
        if CHECKSUMS in self.outputs:
            from .checksums import sums_of
            names = [each.name for each in inputs if each.size is not None]
            with self.family.heeding_signals():
                try:
                    sums = dict(zip(names, sums_of(names)))
                except OSError as error:
                    raise Fault(4, f"cannot read {error.filename}: {reason(error)}")
        said = {name: self.ends[ASKED + name].text() for name in self.beside}
        cutadapt = self.cutadapt.counted()["cutadapt_version"] if self.cutadapt else None
        return provenance(self.arguments.call, self.program_sum, versions(said, cutadapt), inputs,
                          sums)

    def write(self, output: Output, text: bytes) -> None:
        try:
            output.write(text, self.tools.level)
        except OSError as error:
            raise output.fault(reason(error))

    def write_checksums(self, output: Output) -> None:
        from .checksums import checksums    # what it imports takes longer than the rest
        self.write(output, checksums(files_with_checksums(self.outputs), output.name))

    def clean(self) -> None:
        """Ends the children and removes the hidden files."""
        faults.ignore_signals()
        self.progress.wipe()
        self.family.end_all()
        for output in self.outputs.values():
            output.forget()

    def stop(self, number: int) -> NoReturn:
        """Ends this process by the same signal. The first process of a container isn't ended by a
        signal that it sends to itself, and ends with the status that a shell would show."""
        self.progress.wipe()
        say(f"stopped by {signal_name(number)}, {self.what_is_left()}")
        signal.signal(number, signal.SIG_DFL)
        os.kill(os.getpid(), number)
        os._exit(128 + number)

    def what_is_left(self) -> str:
        """What became of the outputs after a stop or a fault. A stream can't be taken back."""
        if not self.streams:
            return "no output was made"
        named = " and ".join(self.streams)
        return f"what was written to {named} is incomplete: discard what was made of it"


def run(arguments: Arguments) -> None:
    """Does what these arguments ask for."""
    if not which(arguments.program):
        raise Fault(1, f"no program {arguments.program} (--program PATH)")
    if arguments.asks_version:
        from ..command import show_version
        if show_version(arguments.program) != 0:
            raise Fault(1, "")  # it says why
        return
    arguments.check()
    one = Run(arguments)
    if arguments.dry_run:
        lines = [shown(start, one.outputs) + "\n" for start in one.plan()]
        write_all(1, "".join(lines).encode("utf-8", "surrogateescape"))
        return
    one.go()


def main(words: Sequence[str], manual: str) -> int:
    """Returns the status."""
    faults.keep_streams()

    def by_words() -> None:
        try:
            arguments = Arguments(words)
        except HelpAsked:
            write_all(1, manual.encode())
            return
        run(arguments)
    return faults.status_of(by_words)
