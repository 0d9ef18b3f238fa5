"""The mirror, the service and the clients of Wumpus: a real tree and real users for `wumpus run`.

Nothing here is proved. The program's theorem says what is answered over the events that it is
given, for the user whom a query names; that the events are true of the real file system, and that
the asker is who she says, is left to these programs, and shown by tests against the kernel alone.
"""

VERSION = "1.0.0"
