"""The traces of several sandboxes, as `./pico boxes` writes them: each behind a line `sandbox NAME`. Their picture is one
page with a part for each, which is a page of its own in a frame: no part knows of another."""
from __future__ import annotations

import html
import re

HEADING = re.compile(r"[ \t\r]*sandbox[ \t\r]+(\S+)[ \t\r]*")
END = re.compile(r"[ \t\r]*endsandbox[ \t\r]*")
PAGE = """\
<!doctype html>
<html lang="en">
<head>
<meta charset="utf-8">
<meta name="viewport" content="width=device-width">
<title>{title}</title>
<style>
body {{ margin: 0; font: 14px system-ui, sans-serif }}
h2 {{ margin: .6em .8em .2em; font-size: 1.1em }}
iframe {{ width: 100%; height: 88vh; border: 0; border-top: 1px solid #ccc }}
</style>
</head>
<body>
{parts}
</body>
</html>
"""
PART = '<section id="{name}">\n<h2>sandbox {name}</h2>\n<iframe title="sandbox {name}" srcdoc="{page}"></iframe>\n</section>'


def parts_of(text: str) -> list[tuple[str, str]]:
    """Each sandbox's name, and what stands behind its line: its trace, or in an input its script. None where the first
    line with words begins no sandbox."""
    parts: list[tuple[str, list[str]]] = []
    for line in text.split("\n"):
        if found := HEADING.fullmatch(line):
            parts.append((found[1], []))
        elif parts and not END.fullmatch(line):
            parts[-1][1].append(line)
        elif not parts and line.strip() and not line.lstrip().startswith("#"):
            return []
    return [(name, "\n".join(lines)) for name, lines in parts]


def page_with(pages: list[tuple[str, str]], title: str) -> str:
    """One page with each sandbox's page in it."""
    parts = "\n".join(PART.format(name=html.escape(name), page=html.escape(page)) for name, page in pages)
    return PAGE.format(title=html.escape(title), parts=parts)
