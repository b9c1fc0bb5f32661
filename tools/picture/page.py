"""A picture of a trace as one page for a browser, with all that it needs in it: a lane for each process and a band for
each queue and set. What is in view is drawn by the page's own script, so a trace of 20,000 entries is one, too."""
from __future__ import annotations

import html
import json
import pathlib

from .reading import Picture

HERE = pathlib.Path(__file__).resolve().parent
KINDS = ("ok", "fork", "end", "notready", "refused", "waits", "woken")


def page_of(picture: Picture, title: str, only: str = "") -> str:
    """The page's text."""
    data = json.dumps(data_of(picture, title, only), separators=(",", ":"), ensure_ascii=False)
    parts = {
        "TITLE": html.escape(title),
        "STYLE": (HERE / "page.css").read_text(encoding="utf-8"),
        "SCRIPT": (HERE / "page.js").read_text(encoding="utf-8"),
        # nothing in the data ends the element that it stands in
        "DATA": data.replace("<", "\\u003c"),
    }
    page = (HERE / "page.html").read_text(encoding="utf-8")
    head, *rest = page.split("{{")
    return head + "".join(parts[it.partition("}}")[0]] + it.partition("}}")[2] for it in rest)


def data_of(picture: Picture, title: str, only: str) -> dict:
    """What the page's script draws. Processes, names and kinds are named by their places."""
    places = {pid: at for at, pid in enumerate(picture.processes)}
    processes = [
        [
            it.pid,
            it.node,
            it.block,
            places.get(it.parent, -1),
            it.begins,
            -1 if it.ends is None else it.ends,
            [[first, -1 if last is None else last, reply] for first, last, reply in it.waits],
        ]
        for it in picture.processes.values()
    ]
    names = [[it.kind, it.number, it.spans, -1 if it.removed is None else it.removed, it.calls] for it in picture.names]
    entries = [
        [
            places[it.pid],
            it.call,
            it.reply,
            it.by,
            KINDS.index(it.kind),
            -1 if it.name is None else it.name,
            [places[pid] for pid in it.about if pid in places],
        ]
        for it in picture.entries
    ]
    return {
        "title": title,
        "totals": picture.totals,
        "skipped": picture.skipped,
        "only": only,
        "kinds": KINDS,
        "processes": processes,
        "names": names,
        "entries": entries,
        "events": [[it.node, it.source] for it in picture.events],
        "made": picture.made_in,
    }
