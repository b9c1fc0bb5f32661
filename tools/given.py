"""The words behind `./pico`: which of them names a file, and whether the program takes the others."""
from __future__ import annotations

MAX_SEED = 2147483646
# the modes that read standard input, and the most that each reads
READS = {
    "run": 1048576,
    "sim": 1048576,
    "check": 68161537,
    "mq": 1048576,
    "boxes": 1048576,
    "freeze": 1048576,
    "thaw": 16777216,
}
# the options that go with each mode
OPTIONS = {
    "run": {"--steps"},
    "sim": {"--seed", "--steps"},
    "check": set(),
    "gen": {"--seed", "--steps"},
    "mq": {"--steps"},
    "boxes": set(),
    "freeze": {"--seed"},
    "thaw": set(),
}


class Given:
    """What was found among the words, as the program's own library of command lines takes them."""

    def __init__(self, words: list[str]) -> None:
        # the words that stand for themselves, with their places: the mode, and perhaps a file
        self.plain: list[tuple[int, str]] = []
        # the options, and the values of --seed
        self.options: list[str] = []
        self.seeds: list[str | None] = []
        at, are_options = 0, True
        while at < len(words):
            word = words[at]
            if not are_options or not word.startswith("-") or word == "-":
                self.plain.append((at, word))
            elif word == "--":
                are_options = False
            elif word == "--seed":
                value = words[at + 1] if at + 1 < len(words) else None
                has_value = value is not None and not (value.startswith("-") and not value[1:].isdigit())
                self.take(word, value if has_value else None)
                at += has_value
            elif word.startswith("--seed="):
                self.take("--seed", word[len("--seed=") :])
            else:
                self.options.append(word)
            at += 1

    def take(self, option: str, value: str | None) -> None:
        self.options.append(option)
        self.seeds.append(value)


def mode_of(words: list[str]) -> str | None:
    plain = Given(words).plain
    return plain[0][1] if plain else None


def with_file(words: list[str]) -> tuple[list[str], str | None]:
    """The words without the file that they name behind a mode that reads, and the file."""
    plain = Given(words).plain
    if len(plain) == 2 and plain[0][1] in READS:
        place, file = plain[1]
        return words[:place] + words[place + 1 :], file
    return words, None


def is_in_order(words: list[str]) -> bool:
    """Whether the program takes the words."""
    given = Given(words)
    if len(given.plain) != 1 or given.plain[0][1] not in OPTIONS:
        return False
    is_once = len(set(given.options)) == len(given.options)
    return is_once and set(given.options) <= OPTIONS[given.plain[0][1]] and all(map(is_seed, given.seeds))


def is_seed(value: str | None) -> bool:
    """Whether a value is the number of a schedule, in its one spelling."""
    if value is None or not (value.isascii() and value.isdigit()):
        return False
    return (value == "0" or not value.startswith("0")) and int(value) <= MAX_SEED
