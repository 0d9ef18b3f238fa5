"""What makes each kind, with its walls; and that everything is loaded that it needs."""

import os

from . import samples
from .filters import FILTERS
from .frames import Sink
from .kinds import PLAIN, WRITTEN, Code, Table
from .walls import Walls
from .worker import CodeTask, ProgramTask, Task


def tasks_of(table: Table) -> dict[str, Task]:
    """The task of each kind whose program is there. Raises `Missing` where a wall is."""
    code = Walls.for_code()
    tasks: dict[str, Task] = {
        name: CodeTask(code, FILTERS[name]) for name in (PLAIN, WRITTEN)
    }
    for kind in table.kinds.values():
        if isinstance(kind.made_by, Code):
            tasks[kind.name] = CodeTask(code, FILTERS[kind.made_by.name])
        elif os.access(kind.made_by.words[0], os.X_OK):
            words = kind.made_by.words
            tasks[kind.name] = ProgramTask(Walls.for_program(words[0]), words)
    return tasks


def load() -> None:
    """Has each filter read its sample: behind the walls nothing can be loaded."""
    nowhere = os.open(os.devnull, os.O_WRONLY | os.O_CLOEXEC)
    try:
        for name, sample in samples.OF_FILTER.items():
            sink = Sink(nowhere)
            FILTERS[name](sample, sink)
            sink.flush()
    finally:
        os.close(nowhere)
