"""The program as the service holds it: started, given one task at a time, killed and begun again.

Nothing is saved by a kill: the program begins again with its last save.
"""

import collections
import selectors
import time
from collections.abc import Callable

from ..shared.program import Ended, Program
from ..shared.script import BadReply
from .tasks import Cause, Failure, Line, Task

STAT = b"stat\n"
LONGEST_PAUSE = 30.0  # seconds before the program is started again
SHORTEST_PAUSE = 0.05
DOUBLINGS = 12
BY_CLOCK = 2.0  # so many times its seconds of the processor may a query take by the clock
LATEST = 10.0  # so many times, with the time in which the program waited for a processor
OF_CLOCK = 8.0  # so many seconds of the clock count as one of the processor
END_SECONDS = 600.0
KEPT_REASONS = 5
STARTS_TO_OPEN = 5  # after so many that fail a mirror is told


class Engine:
    """At most one program, and at most one task of it.

    `lost` is called when a program is gone, before its task is told.
    """

    def __init__(
        self,
        start: Callable[[], Program],
        selector: selectors.BaseSelector,
        longest: float,
        log: Callable[[str], None],
        lost: Callable[[], None],
    ) -> None:
        self.start = start
        self.selector = selector
        self.longest = longest  # seconds of any task, by the clock
        self.log = log
        self.lost = lost
        self.program: Program | None = None
        self.task: Task | None = None
        self.since = 0.0
        self.spent = 0.0  # of the processor, when the task began
        self.waited = 0.0  # for a processor, when the task began
        self.failures = 0  # since something was answered
        self.unopened = 0  # starts since the store was opened
        self.begin_at = 0.0
        self.starts = 0
        self.why: collections.deque[str] = collections.deque(maxlen=KEPT_REASONS)
        self.opening = 0.0  # seconds that the last opening of the store took
        self.charge: Callable[[float], None] | None = None  # who pays for the next opening

    # ---- starts and ends

    def begin(self) -> None:
        """Starts the program, where there is none and it is time. Raises `OSError` at first."""
        if self.program is not None or time.monotonic() < self.begin_at:
            return
        try:
            program = self.start()
        except OSError as error:
            if self.starts == 0:
                raise
            self._note(f"the program can't be started: {error}")
            self._put_off()
            return
        self.starts += 1
        self.unopened += 1
        self.program = program
        self.selector.register(program.output, selectors.EVENT_READ, self._readable)
        self.give(Line(STAT, self._opened))

    def _opened(self, told: bytes | Failure, taken: float) -> None:
        if isinstance(told, bytes):
            self.opening = taken
            self.unopened = 0
            if self.charge is not None:
                self.charge(taken)
            self.charge = None

    def drop(self, failure: Failure) -> None:
        """Kills the program, and begins it again: at once where a query is why.

        Who asks such queries waits herself, and the others needn't.
        """
        self._note(failure.why)
        taken = self._taken()
        self._end_program()
        task, self.task = self.task, None
        if failure.cause is Cause.SLOW or (task is not None and task.seconds is not None):
            self.begin_at = 0.0
        else:
            self._put_off()
        self.lost()
        if task is not None:
            task.fail(failure, taken)

    def _note(self, why: str) -> None:
        self.why.append(why)
        self.log(why)

    def _put_off(self) -> None:
        """Starts the program later, the later the more often it failed."""
        self.failures += 1
        pause = SHORTEST_PAUSE * 2.0 ** min(self.failures, DOUBLINGS)
        self.begin_at = time.monotonic() + min(LONGEST_PAUSE, pause)

    def cannot_open(self) -> bool:
        """Whether the store can't be opened, as far as several starts tell."""
        return self.program is None and self.unopened >= STARTS_TO_OPEN

    def is_well(self) -> None:
        """Something was answered: the next failure is a first one."""
        self.failures = 0

    def begin_now(self) -> None:
        """The next start isn't put off, whatever was before."""
        self.failures = 0
        self.begin_at = 0.0

    def _end_program(self) -> None:
        program, self.program = self.program, None
        if program is not None:
            self._unregister(program)
            program.kill()

    def _unregister(self, program: Program) -> None:
        for descriptor in (program.output, program.input):
            if descriptor in self.selector.get_map():
                self.selector.unregister(descriptor)

    def end(self) -> int:
        """Ends the program for good, which saves where no reply is under way: its status."""
        program, self.program = self.program, None
        if program is None:
            return 0
        self._unregister(program)
        harmless = self.task is None or isinstance(self.task, Line)
        if harmless and not program.waiting:
            return program.finish(END_SECONDS)
        program.kill()
        return 0

    # ---- tasks

    def is_free(self) -> bool:
        """Whether it can be given a task."""
        return self.program is not None and self.task is None

    def give(self, task: Task) -> None:
        """Gives the program its next task. It has to be free."""
        if self.program is None or self.task is not None:
            raise ValueError("the program isn't free")
        self.task = task
        self.since = time.monotonic()
        self.spent = self.program.spent()
        self.waited = self.program.waited()
        self._write(self.program)

    def _write(self, program: Program) -> None:
        """Writes to the program what it takes, and waits for what it doesn't take yet."""
        try:
            while True:
                if not program.waiting and self.task is not None:
                    program.send(self.task.more())
                if not program.waiting or program.write() == 0:
                    break
        except (Ended, BadReply) as error:
            self._failed(error)
            return
        registered = program.input in self.selector.get_map()
        if program.waiting and not registered:
            self.selector.register(program.input, selectors.EVENT_WRITE, self._writable)
        elif registered and not program.waiting:
            self.selector.unregister(program.input)

    def _writable(self, descriptor: int) -> None:
        if self.program is not None and descriptor == self.program.input:
            self._write(self.program)

    def _readable(self, descriptor: int) -> None:
        """Takes the lines that the program wrote."""
        program = self.program
        if program is None or descriptor != program.output:
            return
        try:
            for line in program.read():
                self._take(program, line)
                if self.program is not program:
                    return
        except (Ended, BadReply) as error:
            self._failed(error)
            return
        if self.task is not None and not program.waiting:
            self._write(program)  # what was held back until these lines came

    def _take(self, program: Program, line: bytes) -> None:
        """Takes one line of a reply; the last one ends the task. Raises `BadReply`."""
        task = self.task
        if task is None:
            raise BadReply(f"a line that nobody asked for: {line[:80]!r}")
        if not task.line(line):
            return
        if program.waiting or task.more():
            raise BadReply("there are more lines than replies")
        self.task = None
        task.finish(self._taken())

    def _taken(self) -> float:
        """Seconds that the task took: of the processor, or a part of those of the clock.

        By the clock alone other work on the machine would make each query a slow one.
        """
        spent = 0.0 if self.program is None else self.program.spent() - self.spent
        return max(spent, self._by_clock() / OF_CLOCK)

    def _by_clock(self) -> float:
        """Seconds of the clock that the task took, but for those without a free processor."""
        taken = time.monotonic() - self.since
        waited = 0.0 if self.program is None else self.program.waited() - self.waited
        return taken - min(taken, max(0.0, waited))

    def _failed(self, error: Ended | BadReply) -> None:
        if isinstance(error, BadReply):
            cause = Cause.ANSWER
        else:
            cause = Cause.MEMORY if error.for_memory else Cause.ENDED
        self.drop(Failure(cause, str(error)))

    def look_at_clock(self, is_pressed: bool) -> None:
        """Kills the program where its task takes longer than it may.

        Where a mirror waits for the program, a query's waiting for a processor counts too: what is
        taken away isn't delayed by who keeps the processors busy.
        """
        if self.task is None or self.program is None:
            return
        taken = time.monotonic() - self.since
        seconds = self.task.seconds
        if seconds is not None:
            spent = self.program.spent() - self.spent
            by_clock = taken if is_pressed else self._by_clock()
            is_late = by_clock > BY_CLOCK * seconds or taken > LATEST * seconds
            if spent > seconds or is_late:
                self.drop(Failure(Cause.SLOW, "a query took too long"))
        elif taken > self.longest:
            self.drop(Failure(Cause.SLOW, "the program took too long"))
