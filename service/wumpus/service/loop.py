"""The service: one program, many users, one thread.

What waits for the program is asked one after the other: first what the mirror brings, then the
queries, of the person for whom the program worked least. A batch goes in between two queries,
whole; where a line of it isn't answered `ok`, or the mirror or the service dies, the program is
killed before it can save, and begins again with its last save, which is that after the batch
before. A kill fails what was under way, and nothing that waits.
"""

import os
import selectors
import socket
import time
from collections.abc import Callable
from dataclasses import dataclass
from pathlib import Path

from ..shared import queries
from ..shared.clock import moment
from ..shared.persons import Persons
from ..shared.program import Program
from ..shared.script import escape, unescape
from ..shared.store import move_aside
from .allowed import Allowed
from .clients import Bounds, Clients, Query
from .control import Control, Controls
from .engine import Engine
from .freshness import CLAIMS, Freshness, Told, number_in
from .groups import Groups
from .merging import Merging
from .tasks import Asked, Cause, Failure, Fed, Line, NoFile
from .turns import Turns
from .unsaved import Unsaved
from .waits import Waits

OK = b"ok\n"
FOR_PROGRAM = (b"ask", b"batch", b"live")  # lines of a mirror for which the program has to be free
TICK = 0.2  # seconds
FIRST_AT_MOST = 4.0  # so many times its own seconds may a query have for an opening beside


@dataclass(frozen=True)
class Places:
    """The folder of the store, its two sockets, and who may use them."""

    folder: Path
    ask: socket.socket
    control: socket.socket
    allowed: Allowed
    mirrors: frozenset[int]  # the users who may be a mirror


class Service:
    """The loop. `run` ends after `stop`, with everything saved that is to be."""

    def __init__(
        self,
        start: Callable[[], Program],
        places: Places,
        bounds: Bounds,
        persons: Persons,
        log: Callable[[str], None],
        tick: Callable[["Service"], None],
    ) -> None:
        self.folder = places.folder
        self.bounds = bounds
        self.log = log
        self.tick = tick  # called five times a second
        self.persons = persons
        self.selector = selectors.DefaultSelector()
        self.unsaved = Unsaved()
        self.engine = Engine(start, self.selector, bounds.batch_seconds, log, self._lost)
        self.turns = Turns()
        self.waits = Waits()
        self.merging = Merging(places.folder, log, saved=self.unsaved.saved)
        self.freshness = Freshness(
            moment, int(bounds.stale_seconds * 1000), int(bounds.silent_seconds * 1000)
        )
        self.clients = Clients(
            places.ask,
            self.selector,
            bounds,
            places.allowed,
            persons.of,
            self._refusal,
            self.turns.put,
        )
        self.controls = Controls(places.control, self.selector, places.mirrors, log)
        self.groups = Groups()
        self.batches_fed = 0
        self.batches_failed = 0
        self.stopping = False

    def _lost(self) -> None:
        """The program is gone, with what it knew and hadn't saved."""
        self.groups.doubt()
        self.turns.forget()
        self.unsaved.lost()

    # ---- what is next

    def _next(self) -> None:
        """Gives the program something to do, if it has nothing."""
        while self._next_again() or (
            self._next_control()
            or (self.engine.is_free() and (self._next_query() or self._next_work()))
        ):
            pass

    def _next_again(self) -> bool:
        """Feeds again what a program lost that was killed, before all else."""
        batch = self.unsaved.next() if self.engine.is_free() else None
        if not self.unsaved.can_be_fed() and self.unsaved.again:
            self._fall("more batches were lost than are kept")
            return True
        if batch is None:
            return False

        def ends(failure: Failure | None, _taken: float) -> None:
            if failure is None:
                self.unsaved.went_in()
            elif self.unsaved.again:
                self._fall(failure.why)

        file, due = batch
        self.engine.give(Fed(os.dup(file), due, ends))
        return True

    def _fall(self, why: str) -> None:
        """The program may have rights that were taken away: nobody is answered before a walk.

        The mirrors are cut off, so that none tells of a walk before it asked where the program
        stands.
        """
        self.log(f"what was taken away can't be fed again, and waits for a walk: {why}")
        self.unsaved.saved()
        self.freshness.fall()
        self.controls.end()

    def _next_control(self) -> bool:
        """Does what a mirror asked for, if its line is whole.

        What isn't for the program is done at once. Otherwise each line would wait for another query
        of those who want to hold the mirror up.
        """
        for control in list(self.controls.all.values()):
            fields = control.next_line()
            if fields is not None and self._can_do(control, fields):
                self._do(control, fields, control.take_line())
                return True
        return False

    def _can_do(self, control: Control, fields: list[bytes]) -> bool:
        """Whether a line can be done now: in its order, but a reset also beside what goes on."""
        if fields == [b"reset"]:
            return True
        return not control.is_served and (fields[0] not in FOR_PROGRAM or self.engine.is_free())

    def _next_query(self) -> bool:
        """Asks the next query, or says why not."""
        query = self.turns.take()
        if query is None:
            return False
        client = query.client
        refusal = self._refusal(query.person)
        if self.clients.is_old(client):
            self.clients.close(client)
        elif refusal:
            self.clients.answer(client, refusal)
        else:
            self._ask(query)
        return True

    def _next_work(self) -> bool:
        task = None if self.stopping else self.merging.next_task(not self.turns.is_empty())
        if task is None:
            return False
        self.engine.give(task)
        return True

    # ---- queries

    def _refusal(self, person: int) -> bytes:
        """Why nothing of a person is asked at this moment; empty where something is."""
        refusal = self.freshness.refusal()
        if not refusal and (self.waits.has_to_wait(person) or self.merging.holds(person)):
            return queries.TOO_SLOW
        return refusal

    def _ask(self, query: Query) -> None:
        """Has a query asked. A first one has the time of an opening too, to find what is shown."""
        groups = self.groups.lines_for(query.person, query.client.peer)
        seconds = self.bounds.query_seconds
        if groups or not self.turns.is_kept(query.user):
            seconds += min(FIRST_AT_MOST * seconds, self.engine.opening)
        self.turns.note(query.person, query.user)

        def ends(reply: bytes | Failure, taken: float) -> None:
            if isinstance(reply, Failure):
                self._query_failed(query, reply, taken)
            else:
                self._answered(query, reply, taken)

        self.engine.give(Asked(groups, query.line, seconds, self.bounds.reply, ends))

    def _count(self, query: Query, taken: float) -> None:
        """Counts the program's time to the person who took it, whatever came of it."""
        self.turns.count_time(query.person, taken)
        self.merging.queried(taken)

    def _answered(self, query: Query, reply: bytes, taken: float) -> None:
        """Hands a reply on; where the service itself slept meanwhile, it may be an old one."""
        self.engine.is_well()
        self._count(query, taken)
        answer = self.freshness.refusal() or reply or queries.TOO_LARGE
        self.clients.answer(query.client, answer)

    def _query_failed(self, query: Query, failure: Failure, taken: float) -> None:
        """The program was killed for a query, or ended in its midst: who asked pays for that."""
        person, user = query.person, query.user
        cost = taken + self.engine.opening
        self._count(query, taken)
        if failure.cause in (Cause.SLOW, Cause.MEMORY):
            wait = self.waits.kill(person, cost)
            self.log(f"a query of user {user} ended the program; she waits {wait:.0f} s")
        elif failure.cause is not Cause.OTHERS:
            self.waits.suspect(person, cost)
        if failure.cause is not Cause.OTHERS:
            self.merging.killed_by(person)
            self.engine.charge = lambda seconds: self.turns.charge(person, seconds)
        is_slow = failure.cause is Cause.SLOW
        self.clients.answer(query.client, queries.TOO_SLOW if is_slow else queries.STOPPED)

    # ---- mirrors

    def _do(self, control: Control, fields: list[bytes], file: int | None) -> None:
        """Does what a line of a mirror says. The file of a batch is this method's."""
        if fields[0] in (b"batch", b"live") and file is not None:
            self._feed(control, fields, file)
        elif fields[0] == b"ask" and len(fields) == 2:
            self._question(control, unescape(fields[1]))
        elif fields[0] in CLAIMS:
            self._claimed(control, self.freshness.claim(fields))
        elif fields == [b"reset"]:
            self._reset(control)
        else:
            self._fail(control, "not understood")

    def _fail(self, control: Control, why: str) -> None:
        """Tells a mirror that something isn't done."""
        told = escape(why.encode("utf-8", "replace"))
        self.controls.tell(control, b"failed\t" + told + b"\n")

    def _question(self, control: Control, line: bytes | None) -> None:
        if not line or b"\n" in line:
            self._fail(control, "not understood")
            return

        def ends(reply: bytes | Failure, _taken: float) -> None:
            control.is_served = False
            if isinstance(reply, Failure):
                self._fail(control, reply.why)
            else:
                self.controls.tell(control, b"reply\t" + escape(reply) + b"\n")

        control.is_served = True
        self.engine.give(Line(line + b"\n", ends))

    def _claimed(self, control: Control, told: Told) -> None:
        """Answers what a mirror tells of what the program has."""
        if told is Told.TAKEN:
            self.controls.tell(control, OK)
        else:
            self._fail(control, told.value)

    def _feed(self, control: Control, fields: list[bytes], file: int) -> None:
        """Feeds a batch, whose file is the task's from here on.

        One that is `live` takes rights away and has no save in its last line.
        """
        due = number_in(fields[1]) if len(fields) == 2 else None
        kept = os.dup(file) if fields[0] == b"live" else None

        def ends(failure: Failure | None, _taken: float) -> None:
            control.is_served = False
            if failure is None:
                self._went_in(due or 0, kept)
                self.controls.tell(control, OK)
                return
            if kept is not None:
                os.close(kept)
            self._batch_failed(control, failure, kept is not None)

        try:
            task = Fed(file, due or 0, ends)
        except NoFile as error:
            ends(Failure(Cause.OTHERS, str(error)), 0.0)
            return
        if not due:
            task.fail(Failure(Cause.OTHERS, "not understood"), 0.0)
            return
        self.groups.doubt()
        control.is_served = True
        self.engine.give(task)

    def _went_in(self, due: int, kept: int | None) -> None:
        """A batch is in the program: saved, or kept until something is."""
        self.engine.is_well()
        self.batches_fed += 1
        if kept is not None:
            self.unsaved.add(kept, due)
            return
        self.unsaved.saved()
        self.freshness.batch_went_in()
        self.merging.fed()

    def _batch_failed(self, control: Control, failure: Failure, is_live: bool) -> None:
        """A batch isn't in the program, so what its walk saw, or what was heard, isn't either."""
        if is_live:
            self.freshness.live_batch_failed()
        else:
            self.freshness.batch_failed()
        self.batches_failed += 1
        is_memory = failure.cause is Cause.MEMORY
        self._fail(control, f"memory: {failure.why}" if is_memory else failure.why)

    def _reset(self, control: Control) -> None:
        """Moves the store aside, and begins anew."""
        self.freshness.forget()
        self.groups.forget()
        self.unsaved.saved()
        self.engine.drop(Failure(Cause.OTHERS, "the store is moved aside"))
        self.engine.begin_now()
        try:
            move_aside(self.folder)
        except OSError as error:
            self._fail(control, f"the store can't be moved aside: {error}")
            return
        self.controls.tell(control, OK)

    def _fail_waiting(self) -> None:
        """Tells the mirrors whose lines wait that the store can't be opened."""
        why = self.engine.why[-1] if self.engine.why else ""
        for control in list(self.controls.all.values()):
            fields = control.next_line()
            if fields is not None and fields != [b"reset"]:
                self._fail(control, f"the store can't be opened: {why}")
                control.drop_lines()

    # ---- time

    def _look_at_clock(self) -> None:
        """Ends what takes too long, and reads again what changed."""
        self.engine.look_at_clock(self.controls.is_waiting())
        if self.engine.cannot_open():
            self._fail_waiting()
        self.persons.look()
        self.clients.look_at_clock()
        self.controls.accepting.go_on()
        self.tick(self)

    def stop(self) -> None:
        """Asks the loop to end."""
        self.stopping = True

    def run(self) -> int:
        """Answers until `stop`: the exit status. Raises `OSError` where it can't begin."""
        clock = 0.0
        try:
            while not self.stopping:
                self._begin()
                self._next()
                for key, _ in self.selector.select(TICK):
                    key.data(key.fd)
                if time.monotonic() - clock > TICK:
                    clock = time.monotonic()
                    self._look_at_clock()
        except BaseException:
            self._end(False)
            raise
        return self._end(True)

    def _begin(self) -> None:
        """Starts the program where there is none; it may have something to merge."""
        starts = self.engine.starts
        self.engine.begin()
        if self.engine.starts != starts:
            self.merging.opened()

    def _end(self, is_whole: bool) -> int:
        """Ends the program: its end saves, but for a batch that isn't whole."""
        if not is_whole:
            self.engine.drop(Failure(Cause.OTHERS, "the service ends"))
        status = self.engine.end()
        self.unsaved.saved()
        self.clients.end()
        self.controls.end()
        self.selector.close()
        return 0 if status == 0 else 1
