"""A plain model of the program, made of docs/SCRIPT.md alone: it judges, so it uses no `wumpus/`.

It has no `export`, no `demo` and no `check`, and of background work no more than that there is
some. Letters are folded by Python's own version of Unicode.
"""
