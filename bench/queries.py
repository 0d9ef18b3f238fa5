"""The queries of the measure: by kind, by how frequent their words are, and by the user who asks."""

from collections.abc import Iterator
from dataclasses import dataclass

import corpus

USERS = {"1 %": corpus.FEW_USER, "10 %": corpus.SOME_USER, "all": corpus.ROOT_USER}

# Numbers of entries of the corpus: words, and beside each a phrase.
WORDS = {
    "frequent": [8, 12, 16, 20, 24],
    "medium": [2_000, 2_202, 2_404, 2_606, 2_808],
    "rare": [30_000, 31_002, 32_004, 33_006, 34_008],
}
PHRASES = {
    "frequent": [15, 23, 31, 39, 47],
    "medium": [2_007, 2_215, 2_407, 2_615, 2_807],
    "rare": [30_007, 31_015, 32_007, 33_015, 34_007],
}
# Phrases whose first words are frequent, those of entries 0, 16, 3, 20 and 8, and whose second words are as frequent as is told.
UNLIKE_PHRASES = {
    "medium": [2_031, 2_255, 2_415, 2_655, 2_815],
    "rare": [30_255, 31_151, 32_319, 33_231, 34_063],
}
NEAR_TOKENS = 10
RANKED = 10


@dataclass
class Query:
    """One question in the words of the script, in those of FTS5, and as its words alone, for Xapian."""

    kind: str
    line: bytes
    match: str
    words: list[str]


def word_query(user: int, number: int) -> Query:
    """Returns the count of a word."""
    word = corpus.word(number)
    return Query("word", corpus.line("count", user, f'"{word}"'), f'"{word}"', [word])


def phrase_query(user: int, number: int) -> Query:
    """Returns the count of a phrase of two words."""
    words = list(corpus.pair(number))
    phrase = " ".join(words)
    return Query("phrase", corpus.line("count", user, f'"{phrase}"'), f'"{phrase}"', words)


def near_query(user: int, number: int) -> Query:
    """Returns the count of two words within some tokens. FTS5 gives the number of words between the two instead."""
    first, second = corpus.pair(number)
    expression = f'("{first}" ^ "{second}") < [{NEAR_TOKENS}]'
    match = f'NEAR("{first}" "{second}", {NEAR_TOKENS - 2})'
    return Query("near", corpus.line("count", user, expression), match, [first, second])


def rank_query(user: int, number: int) -> Query:
    """Returns the ranking of files by two words."""
    first, second = corpus.word(number), corpus.word(number + 2)
    line = corpus.line("rank", user, RANKED, "file", f"{first} {second}")
    return Query("rank", line, f'"{first}" OR "{second}"', [first, second])


KINDS = {
    "word": (word_query, WORDS),
    "phrase": (phrase_query, PHRASES),
    "phrase, unlike": (phrase_query, UNLIKE_PHRASES),
    "near": (near_query, PHRASES),
    "near, unlike": (near_query, UNLIKE_PHRASES),
    "rank": (rank_query, WORDS),
}


@dataclass
class Cell:
    """The queries that are measured together. Words of unlike frequency are a kind of their own, of the same questions."""

    kind: str
    frequency: str
    who: str
    user: int
    queries: list[Query]

    @property
    def question(self) -> str:
        """What its queries ask: a word, a phrase, words that are near, or a ranking."""
        return self.queries[0].kind


def cell(kind: str, frequency: str, who: str) -> Cell:
    """Returns the cell of this kind, frequency and user."""
    make, numbers = KINDS[kind]
    user = USERS[who]
    return Cell(kind, frequency, who, user, [make(user, number) for number in numbers[frequency]])


def cells() -> Iterator[Cell]:
    """Yields all cells."""
    for who in USERS:
        for kind, (_, numbers) in KINDS.items():
            for frequency in numbers:
                yield cell(kind, frequency, who)
