"""Wrong models, and what tells them apart from the model.

`edits` has the list; each of the other modules adds to it. Left out are edits that no call can show, since other rules imply the one
that is bent: an outer header asked for 20 bytes (its words and length say so), an inner packet for 40 (its payload length says so), a sum
of 0 taken for right (no header and no message is all zeros), 23 before 15 and 19 before 18 (they never apply together); a key without the
protocol (4 leaves but one), datagrams dropped when they are live no more, by whichever call (they never are again, and their places are
free), an ignored piece kept as one that was taken (it has the same bytes and the same end); a fragment's offset asked before its length (a
header cut off and a later fragment both draw no message); a report that quotes a locator of both services given to the second (settings that
share one are refused), 11 for an absent service asked after 11 for a locator's number (they are one number); a recording's datagram not asked
for its end (what is behind the last then is), an input of `recordings` for nine bytes (the first recording's length says so).
"""
import sys
from itertools import zip_longest
from pathlib import Path
from types import ModuleType

from .. import digests
from . import advertising, comparing, extension_headers, joining, orders, programs, receiving, routers, sending, services, settings, sizes, times  # noqa: F401
from .edits import WRONG

MODULES = ("octets", "rules", "joining", "node", "formats", "comparing", "recordings")
ALONE = ("comparing", "recordings")                           # what the program `recordings` alone is made of
SOURCES = {name: (Path(__file__).parent.parent / f"{name}.py").read_text() for name in MODULES}
CODE = {name: compile(text, name, "exec") for name, text in SOURCES.items()}


def edited_text(module, edits):
    text = SOURCES[module]
    for old, new in edits:
        if text.count(old) != 1:
            raise AssertionError(f"the old text stands {text.count(old)} times in {module}: {old}")
        text = text.replace(old, new)
    return text


def load(name):
    """The modules of the wrong model, which are its own."""
    edited, edits = WRONG[name]
    text = edited_text(edited, edits)
    package = sys.modules["wrong_model"] = ModuleType("wrong_model")
    package.__path__ = []
    sys.modules["wrong_model.digests"] = digests              # with all digests that are known by now
    for module in MODULES:
        made = sys.modules[f"wrong_model.{module}"] = ModuleType(f"wrong_model.{module}")
        code = compile(text, module, "exec") if module == edited else CODE[module]
        exec(code, made.__dict__)
    return [sys.modules[f"wrong_model.{module}"] for module in ("formats", "recordings")]


def shown_by(name, program):
    """Whether an input of the program may show what the wrong model does wrong."""
    return (WRONG[name][0] in ALONE) == (program == "recordings")


def told_apart(name, inputs):
    """The name of the first input whose lines are not those of the model; None if there is none. Nothing is made behind the first line
    that differs."""
    formats, recordings = load(name)
    for place, program, data, lines in inputs:
        if not shown_by(name, program):
            continue
        given = getattr(recordings if program == "recordings" else formats, f"{program}_lines")(data)
        if any(one != other for one, other in zip_longest(given, lines)):
            return place
    return None
