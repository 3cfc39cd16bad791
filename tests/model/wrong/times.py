"""Wrong latest times and due times."""
from .edits import ANSWERED, wrong

START = {"receive": "or in the memory, and its length.", "send": "writes into `output`.", "report": "of the record.", "replace_routers": "a new one is due now (R2.13).",
         "ask": "lowest place on a tie (R13.1, R13.3).", "advertisement": "follows from the smallest lifetime."}


def unraised(name, condition):
    """The latest time stays as it was before a call that gave `line`."""
    wrong("formats", name, ANSWERED, f"    before = node.shared.latest\n{ANSWERED}    if {condition}:\n        node.shared.latest = before\n")


for call, comment in START.items():
    start = f"{comment}\"\"\"\n        self.raise_time(time)\n"
    wrong("node", f"time: not raised by {call}", start, f"{comment}\"\"\"\n")
    wrong("node", f"time: {call} goes back to an earlier one", start, f"{comment}\"\"\"\n        self.shared.latest = time\n")
    unraised(f"time: not raised by a refused call of {call}", f"name == {call.replace('replace_', '')!r} and line.startswith('refuse')")
for call, numbers in (("receive", (15, 2, 3, 4, 6, 7, 8, 9, 10, 30, 29, 28, 27)), ("send", (8, 11, 12, 13, 15)), ("report", (16, 17, 18, 19)), ("ask", (11, 22, 15)), ("advertisement", (8, 20, 21))):
    for given in numbers:
        unraised(f"time: not raised by {call} refused with {given}", f"name == {call!r} and line == 'refuse {given}'")
unraised("time: not raised by a Too Big", "line.startswith('too-big')")
unraised("time: not raised by a whole datagram that is delivered", "line.startswith('deliver')")
unraised("time: not raised by the piece that completes", "line.startswith('joined')")
wrong("node", "time: the first one kept", "self.latest = max(self.latest, time)", "self.latest = self.latest or time")
wrong("node", "time: compared as signed", "self.latest = max(self.latest, time)",
      "self.latest = max(self.latest, time, key=lambda one: one ^ 0x80000000)")
wrong("node", "time: compared round the clock", "self.latest = max(self.latest, time)",
      "self.latest = time if (time - self.latest) % 2 ** 32 < 2 ** 31 else self.latest")
wrong("node", "time: kept in 16 bits", "self.latest = max(self.latest, time)", "self.latest = max(self.latest, time % 65536)")
wrong("node", "time: kept in 31 bits", "self.latest = max(self.latest, time)", "self.latest = max(self.latest, min(time, 2 ** 31 - 1))")
wrong("node", "time: counted on by each call", "self.latest = max(self.latest, time)", "self.latest = max(self.latest, time) + 1")
MODULO = (("wraps at 32 bits", "({}) % 2 ** 32"), ("stops at the last second", "min({}, 2 ** 32 - 1)"),
          ("wraps at 31 bits", "({}) % 2 ** 31"), ("stops at 31 bits", "min({}, 2 ** 31 - 1)"))
for name, form in MODULO:
    for call, due in (("asking", "self.latest + self.settings.interval"), ("an advertisement", "self.latest + wait")):
        wrong("node", f"due time of {call} {name}", f"self.set_due(router, {due})", f"self.set_due(router, {form.format(due)})")
    wrong("node", f"every due time {name}", "time if other == router else due)", f"{form.format('time')} if other == router else due)")
