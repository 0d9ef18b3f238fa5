"""Which groups the program was told of each user, so that each query is asked with the right ones.

The program keeps, and saves, what it is told. A person can ask under many numbers, each in
thousands of groups; so of one person it keeps those of a few numbers, and of the others none.
"""

import collections

from ..shared.peers import Peer
from ..shared.script import spell_user

USERS_AT_MOST = 16  # of one person


class Groups:
    """What the program was told, by person and user; None where it may know something else."""

    def __init__(self) -> None:
        self.told: dict[int, collections.OrderedDict[int, tuple[int, ...] | None]] = {}

    def doubt(self) -> None:
        """A batch may have set users, or the program began again with what was saved."""
        for users in self.told.values():
            for user in users:
                users[user] = None

    def forget(self) -> None:
        """The program begins with an empty store."""
        self.told.clear()

    def lines_for(self, person: int, peer: Peer) -> list[bytes]:
        """The lines before a query: one for the asker's groups, where the program has others.

        Before it stands one that takes away those of another number, where they are too many.
        """
        if peer.user == 0:
            return []
        users = self.told.setdefault(person, collections.OrderedDict())
        known = users.get(peer.user)
        users[peer.user] = peer.groups
        users.move_to_end(peer.user)
        lines = []
        if len(users) > USERS_AT_MOST:
            oldest, _ = users.popitem(last=False)
            lines.append(spell_user(oldest, ()))
        if known != peer.groups:
            lines.append(spell_user(peer.user, peer.groups))
        return [line for line in lines if line is not None]
