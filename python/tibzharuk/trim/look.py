"""What a run looks at before it starts: its files, and the reads at their beginning."""

from typing import Dict, List, Sequence, Tuple

from .arguments import CHECKSUMS, Arguments
from .checks import check_interleaved, check_lanes, no_end
from .faults import Fault, say, warn
from .files import Output, Side, check_inputs, sides_of
from .known_adapters import taken_by_auto, word_on_adapters, word_on_scores
from .tools import Tools, which


def look_at_files(arguments: Arguments, tools: Tools) -> Tuple[List[Side], Dict[str, Output]]:
    """The inputs by their sides and the outputs by their roles. Refuses those that can't be those
    of a run, and warns of what may be wrong."""
    check_inputs(arguments.inputs())
    sides, outputs = sides_of(arguments), outputs_of(arguments)
    for each in [each for side in sides for each in side.inputs]:
        if each.look():
            no_end(each.name, arguments.needs_end)
        each.check_tool(tools.decompressor)
    if arguments.through:
        check_command(arguments, outputs["interleaved"])
    if arguments.checks_names:
        check_lanes(arguments.forward, arguments.reverse)
        check_interleaved(arguments.both)
    return sides, outputs


def outputs_of(arguments: Arguments) -> Dict[str, Output]:
    """The outputs by their roles, each of which can be written."""
    outputs: Dict[str, Output] = {}
    for role, name in arguments.outputs_in_order():
        output = Output(role, name)
        output.check(arguments.files_that_are_read(), outputs.values())
        outputs[role] = output
    if CHECKSUMS in outputs and not files_with_checksums(outputs):
        raise Fault(1, "--checksums: no output is a file")
    return outputs


def files_with_checksums(outputs: Dict[str, Output]) -> List[Output]:
    return [output for role, output in outputs.items()
            if role != CHECKSUMS and not output.is_device]


def check_command(arguments: Arguments, output: Output) -> None:
    """Refuses the user's command if what runs it, or counts its records, isn't installed."""
    if not which("bash"):
        raise Fault(1, "no program bash (--through)")
    if not arguments.expects_pairs:
        return
    if output.is_device:
        raise Fault(1, f"--expect-pairs needs a file, and {output.name} isn't one")
    if not output.name.lower().endswith(".sam") and not which("samtools"):
        raise Fault(1, "no program samtools (--expect-pairs)")


def lanes_of(sides: Sequence[Side]) -> List[Tuple[str, ...]]:
    return list(zip(*(side.names for side in sides)))


def take_adapters(arguments: Arguments, sides: Sequence[Side]) -> None:
    """Does what --adapters auto asks for, and says which adapters it took."""
    name, why = taken_by_auto(lanes_of(sides))
    arguments.take(name)
    say(f"--adapters auto takes {name}: {why}")


def look_at_reads(arguments: Arguments, sides: Sequence[Side]) -> None:
    """Says if the first pairs hold known adapters, but none are named, or if their scores are those
    of another encoding."""
    lanes = lanes_of(sides)
    words = [] if arguments.names_adapters() else [word_on_adapters(lanes)]
    words += [] if arguments.encoding else [word_on_scores(lanes[0])]
    for word in words:
        if word:
            warn(word)
