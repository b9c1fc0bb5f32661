"""Files of proofs with each lemma's body left out, so that what stands on a crate of laws can be checked before its
proofs pass. A definition that has to compute keeps its body: an `abbrev`, an `unfoldable`, a record, a type, and whatever
has `_` in its name and no `-`."""
from __future__ import annotations

import re

KEPT = ("use ", "pub use ", "open ", "infix", "syntax", "mod ", "pub mod ")
TYPE = re.compile(r"(pub )?(record|data)\b")
COMPUTES = re.compile(r"(?:abbrev|unfoldable) (?:pub )?(\S+)")
NAMED = re.compile(r"(?:pub )?(\S+)")


def is_blank(line: str) -> bool:
    return not line.strip()


def depth(line: str) -> int:
    return len(line) - len(line.lstrip(" "))


def items(lines: list[str], at: int) -> list[list[str]]:
    """The items that begin at this depth, each with the blank lines behind it."""
    found: list[list[str]] = []
    for line in lines:
        begins = not is_blank(line) and depth(line) <= at and line.strip()[0] not in "})]"
        if begins or not found:
            found.append([])
        found[-1].append(line)
    return found


def is_clause(item: list[str], name: str) -> bool:
    """Whether the item goes on with what this name is."""
    text = item[0].strip()
    return text.startswith("unfolding") or bool(re.match(re.escape(name) + r"(\s|$)", text))


def trailing(item: list[str]) -> list[str]:
    """The blank lines at the item's end, which are taken off it."""
    cut = []
    while item and is_blank(item[-1]):
        cut.append(item.pop())
    return cut


def without_bodies(lines: list[str], at: int = 0) -> list[str]:
    out: list[str] = []
    rest = items(lines, at)
    while rest:
        item = rest.pop(0)
        text = item[0].strip()
        if not text or text.startswith(("--", *KEPT)) or TYPE.match(text):
            out += item
        elif re.match(r"(pub )?module\b", text):
            head = next(k for k, line in enumerate(item) if re.search(r"(^|\s)where\s*$", line)) + 1
            first = next((line for line in item[head:] if not is_blank(line)), None)
            out += item[:head] + (without_bodies(item[head:], depth(first)) if first else [])
        else:
            computes = COMPUTES.match(text)
            name = (computes or NAMED.match(text))[1]
            keeps = bool(computes) or ("_" in name and "-" not in name)
            behind = [] if keeps else trailing(item)
            out += item
            while rest and not is_blank(item[-1] if keeps else "x") and is_clause(rest[0], name):
                item = rest.pop(0)
                if keeps:
                    out += item
                else:
                    behind = trailing(item) or behind
            out += [] if keeps else [f"{' ' * at}{name} = ?", *behind]
    return out
