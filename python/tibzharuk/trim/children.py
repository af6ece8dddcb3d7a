"""Programs that were started, and what they print."""

import contextlib
import fcntl
import os
import select
import selectors
import signal
import subprocess
import time
from typing import (Any, Callable, Dict, Iterable, Iterator, List, NamedTuple, Optional, Sequence,
                    Tuple)

from .faults import SIGNALS, Fault, Stopped, reason, signal_name
from .tools import reason_of

F_SETPIPE_SZ = getattr(fcntl, "F_SETPIPE_SZ", 1031)
PIPE_BYTES = 1 << 20
PR_SET_PDEATHSIG = 1
Usual = Iterable[Tuple[str, str]]   # variables of the environment, unless the user has set them


def make_pipe() -> Tuple[int, int]:
    """Both ends of a pipe, with more room than usual if the system gives it."""
    ends = os.pipe()
    with contextlib.suppress(OSError):
        fcntl.fcntl(ends[1], F_SETPIPE_SZ, PIPE_BYTES)
    return ends


def drain(fd: int, into: Optional[bytearray]) -> bool:
    """Reads all that a pipe holds now, and forgets it at None. Returns whether more may come."""
    for _ in range(64):
        try:
            part = os.read(fd, 65536)
        except BlockingIOError:
            return True
        if not part:
            return False
        if into is not None:
            into += part
    return True


def way_to_end_with_us() -> Optional[Callable[[], None]]:
    """What a child calls first, so that the system kills it if this process is gone, as by kill -9.
    Otherwise it would work on to the end of its input. None: this system can't."""
    try:
        import ctypes
        prctl = ctypes.CDLL(None).prctl
    except (ImportError, OSError, AttributeError):
        return None
    parent = os.getpid()

    def end_with_us() -> None:
        prctl(PR_SET_PDEATHSIG, signal.SIGKILL)
        if os.getppid() != parent:
            os.kill(os.getpid(), signal.SIGKILL)
    return end_with_us


class Ended(NamedTuple):
    """How a process ended: its status, negative for a signal, and what it printed on standard
    error."""

    status: int
    said: bytes = b""

    def text(self) -> str:
        return self.said.decode("utf-8", "replace")

    def met_closed_pipe(self) -> bool:
        """Whether it ended because nobody reads what it writes."""
        return self.status == -signal.SIGPIPE or b"Broken pipe" in self.said

    def is_not_started(self) -> bool:
        """Whether a shell, or `whole_lines`, could not start what it was to run."""
        return self.status in (126, 127)

    def why(self, name: str = "") -> str:
        """Why it failed."""
        if self.status < 0:
            return f"ended by {signal_name(-self.status)}"
        return reason_of(self.text(), name) or f"status {self.status}"


def for_tools(usual: Usual) -> Dict[str, str]:
    """The environment of a tool, without options that the user has set for other calls of it."""
    environment: Dict[str, str] = {**dict(usual), **os.environ, "LC_ALL": "C"}
    for options in "GZIP", "PIGZ":
        environment.pop(options, None)
    return environment


class Child:
    """A program that was started, in a process group of its own, and what it prints on standard
    error."""

    def __init__(self, name: str, words: List[str], stdin: Optional[int], stdout: Optional[int],
                 passed: Sequence[int], said: Tuple[bytearray, int], environment: Dict[str, str],
                 first: Optional[Callable[[], None]]) -> None:
        self.name = name
        self.status: Optional[int] = None
        self.said, said_end = said
        for fd in passed:
            os.set_inheritable(fd, True)
        try:
            # Not close_fds: a name such as /dev/fd/63 leads to a file that the shell has opened.
            # exec closes our own files.
            self.process = subprocess.Popen(
                words, stdin=stdin, stdout=said_end if stdout is None else stdout, stderr=said_end,
                close_fds=False, start_new_session=True, env=environment, preexec_fn=first)
        except OSError as error:
            raise Fault(4, f"cannot start {words[0]}: {reason(error)}")
        finally:
            for fd in passed:
                os.set_inheritable(fd, False)
            os.close(said_end)

    def look(self) -> bool:
        """Whether it has ended. All that it started ends with it, while its process number is still
        its own."""
        if self.status is not None:
            return True
        if os.waitid(os.P_PID, self.process.pid, os.WEXITED | os.WNOHANG | os.WNOWAIT) is None:
            return False
        self.signal(signal.SIGKILL)
        self.status = self.process.wait()
        return True

    def signal(self, number: int) -> bool:
        """Sends a signal to it and to all that it started. Returns whether there is any of them."""
        try:
            os.killpg(self.process.pid, number)
        except (ProcessLookupError, PermissionError):
            return False
        return True

    def ended(self) -> Ended:
        """How it ended, with what it has printed until now."""
        assert self.status is not None
        return Ended(self.status, bytes(self.said))


class Family:
    """All children, and what they print."""

    def __init__(self, tick: Callable[[], None], pause: float) -> None:
        self.children: List[Child] = []
        self.tick, self.pause = tick, pause
        self.selector = selectors.DefaultSelector()
        self.first_signal: Optional[int] = None
        self.is_waiting = False
        self.end_with_us = way_to_end_with_us()
        awake, wake = os.pipe()
        os.set_blocking(awake, False)
        os.set_blocking(wake, False)
        self.selector.register(awake, selectors.EVENT_READ, bytearray())
        signal.set_wakeup_fd(wake)
        # If SIGCHLD is ignored, the system keeps no status.
        signal.signal(signal.SIGCHLD, lambda *_: None)
        for number in SIGNALS:
            if signal.getsignal(number) != signal.SIG_IGN:
                signal.signal(number, self.note)
        if signal.getsignal(signal.SIGTSTP) != signal.SIG_IGN:
            signal.signal(signal.SIGTSTP, self.stop_all)

    def note(self, number: int, _: Any) -> None:
        self.first_signal = self.first_signal or number
        if self.is_waiting:
            raise Stopped

    def stop_all(self, number: int, _: Any) -> None:
        """Ctrl-Z stops the children too, which the terminal does not reach: they are in sessions of
        their own. Returns after `fg` or `bg`."""
        for child in self.children:
            child.signal(signal.SIGSTOP)
        signal.signal(number, signal.SIG_DFL)
        os.kill(os.getpid(), number)
        signal.signal(number, self.stop_all)
        for child in self.children:
            child.signal(signal.SIGCONT)

    @contextlib.contextmanager
    def heeding_signals(self) -> Iterator[None]:
        """A signal interrupts a system call that may wait forever."""
        self.is_waiting = True
        try:
            if self.first_signal:
                raise Stopped
            yield
        finally:
            self.is_waiting = False

    def listen(self) -> Tuple[bytearray, int]:
        """A buffer for what comes through a new pipe, and the writing end of that pipe."""
        ours, theirs = os.pipe()
        os.set_blocking(ours, False)
        heard = bytearray()
        self.selector.register(ours, selectors.EVENT_READ, heard)
        return heard, theirs

    def discard(self, fd: int) -> None:
        """Reads what comes through this pipe from now on, and forgets it."""
        os.set_blocking(fd, False)
        self.selector.register(fd, selectors.EVENT_READ, None)

    def start(self, name: str, words: List[str], stdin: Optional[int] = None,
              stdout: Optional[int] = None, passed: Sequence[int] = (), usual: Usual = (),
              is_users: bool = False) -> None:
        """Starts a child. Its standard error is gathered, and its standard output too if none is
        given. A command of the user has the user's environment and our standard error. cutadapt
        isn't killed with this process, as its own processes would wait for it forever: it ends soon
        after its inputs do."""
        first = None if name == "cutadapt" else self.end_with_us
        said = (bytearray(), os.dup(2)) if is_users else self.listen()
        environment = dict(os.environ) if is_users else for_tools(usual)
        self.children.append(Child(name, words, stdin, stdout, passed, said, environment, first))

    def attend(self) -> None:
        """Waits until something happens, but at most for `pause` seconds."""
        for key, _ in self.selector.select(self.pause):
            if not drain(key.fd, key.data):
                self.selector.unregister(key.fd)
                os.close(key.fd)
        self.tick()

    def next_end(self) -> Child:
        """The next child that has ended. If several have, the one that was started first."""
        child = None
        while child is None:
            child = self.next_end_until(float("inf"))
        return child

    def next_end_until(self, until: float) -> Optional[Child]:
        """The next child that has ended, or None if none has ended by then."""
        while time.monotonic() < until:
            child = next((child for child in self.children if child.look()), None)
            if self.first_signal:
                raise Stopped  # the same signal may have ended the child
            if child:
                self.children.remove(child)
                for key in list(self.selector.get_map().values()):
                    drain(key.fd, key.data)  # all that was printed until now
                return child
            self.attend()
        return None

    def find(self, name: str) -> Optional[Child]:
        """The child of this name that still runs, or None."""
        return next((child for child in self.children if child.name == name), None)

    def end_all(self) -> None:
        """Ends the children and all that they started, by force if they don't end soon. Waits only
        for a moment for a killed process that nobody reaps."""
        left = list(self.children)
        for child in left:
            child.signal(signal.SIGTERM)
        for tries in range(100):
            left = [child for child in left if not child.look() or tries < 40 and child.signal(0)]
            if not left:
                return
            time.sleep(0.005 if tries < 40 else 0.05)
            for child in left if tries >= 70 and tries % 10 == 0 else ():
                child.signal(signal.SIGKILL)


class Pipes:
    """The pipes of a run, by their names. What isn't made before is made when it is asked for, and
    lent to the children only."""

    def __init__(self, family: Family) -> None:
        self.family = family
        self.ends: Dict[str, Tuple[int, int]] = {}      # for reading and for writing
        self.lent: List[int] = []
        self.texts: Dict[str, bytearray] = {}

    def make(self, name: str, keeps_reading: bool = False, keeps_writing: bool = False) -> None:
        """Makes a pipe. This process keeps these of its ends."""
        self.ends[name] = make_pipe()
        for fd, is_kept in zip(self.ends[name], (keeps_reading, keeps_writing)):
            if not is_kept:
                self.lent.append(fd)

    def keep_text(self, name: str) -> None:
        """Makes a pipe whose text this process keeps."""
        self.texts[name], writing = self.family.listen()
        self.ends[name] = (-1, writing)
        self.lent.append(writing)

    def fd(self, name: str, is_writing: bool) -> int:
        if name not in self.ends:
            self.make(name)
        return self.ends[name][is_writing]

    def name(self, name: str, is_writing: bool) -> str:
        """The name under which a child opens this end. Empty if there is no such pipe."""
        return f"/dev/fd/{self.ends[name][is_writing]}" if name in self.ends else ""

    def text(self, name: str) -> bytes:
        return bytes(self.texts[name])

    def close(self, name: str, is_writing: bool) -> None:
        os.close(self.ends[name][is_writing])

    def left(self, name: str) -> Tuple[bool, bool]:
        """Whether a pipe, which this process can read, holds something, and whether more may be
        written to it."""
        poll = select.poll()
        poll.register(self.ends[name][0], select.POLLIN)
        events = sum(event for _, event in poll.poll(0))
        return bool(events & select.POLLIN), not events & select.POLLHUP

    def let_go(self) -> None:
        """Closes the ends that only children need, after all children have them."""
        for fd in self.lent:
            os.close(fd)
        self.lent.clear()
