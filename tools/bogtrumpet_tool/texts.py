"""The text form of an input: a line for each setting and each call, in the order of the bytes."""
from pathlib import Path

from .fields import CALLS, DATAGRAM, KINDS, LISTS, SINGLE, only
from .forms import Number, Packet
from .inputs import Input, Service
from .wrong import Wrong, named

FORMATS = ("program", "replay")
SERVICE_LINE = only("number", Number(1, 1))
SINGLE_LINES = {name: only(name, form) for name, (form, _) in SINGLE.items()}


# ---- Reading

def lines_of(data, file):
    """The words of each line that has some, with its number."""
    for number, line in enumerate(data.split(b"\n"), 1):
        try:
            words = line.decode().split()
        except UnicodeDecodeError:
            raise Wrong(f"{file}:{number}: not UTF-8") from None
        end = next((place for place, word in enumerate(words) if word.startswith("#")), len(words))
        if words[:end]:
            yield number, words[:end]


def parsed(form, word, folder):
    if isinstance(form, Packet) and word.startswith("@"):
        return form.parse_file(folder / word[1:])
    return form.parse(word)


def values_of(name, words, fields, folder):
    """The values of a line, by field."""
    values = {one.name: [] for one in fields if one.many}
    placed = [one for one in fields if one.placed]
    by_name = {one.name: one for one in fields if not one.placed}
    for word in words:
        key, equals, rest = word.partition("=")
        if equals and key in by_name:
            one = by_name[key]
        elif placed and not equals:
            one, rest = placed.pop(0), word
        else:
            raise Wrong(f"`{name}` has no {named(word)}; it has {form_of(fields)}")
        if one.many:
            values[one.name].append(parsed(one.form.form, rest, folder))
        elif one.name in values:
            raise Wrong(f"`{one.name}` stands twice")
        else:
            values[one.name] = parsed(one.form, rest, folder)
    for one in fields:
        if one.name not in values:
            if one.default is None:
                raise Wrong(f"`{name}` needs {form_of([one])}")
            values[one.name] = one.default
    return values


def form_of(fields):
    """The values of a line as a message names them."""
    return " ".join(one.name.upper() if one.placed else f"{one.name}=.." for one in fields)


class Text:
    """An input as it is read, line by line."""

    def __init__(self, format, folder):
        self.format, self.folder = format, folder
        self.services, self.calls, self.set, self.begun, self.numbered = [Service()], [], set(), False, False

    def line(self, name, words):
        if name in FORMATS:
            self.format_line(name, words)
        elif name == "service":
            self.service_line(words)
        elif name in LISTS or name in SINGLE:
            self.setting(name, words)
        else:
            self.call(name, words)
        self.begun = True

    def format_line(self, name, words):
        if words or self.begun:
            raise Wrong(f"`{name}` stands alone in the first line, or not at all")
        if self.format not in (None, name):
            raise Wrong(f"this is a text for `{name}`, not for `{self.format}`")
        self.format = name

    def service_line(self, words):
        number = values_of("service", words, SERVICE_LINE, self.folder)["number"]
        if self.format == "program":
            raise Wrong("the program has one service, and no line `service` (R26.10)")
        if self.calls:
            raise Wrong("settings stand before the first call")
        if number == 0 and (self.numbered or self.set) or number == 1 and len(self.services) == 2:
            raise Wrong(f"`service {number}` stands once, before its settings; 0 first")
        self.numbered = True
        if number == 1:
            self.services.append(Service())

    def setting(self, name, words):
        if self.calls:
            raise Wrong("settings stand before the first call")
        if name in LISTS:
            self.services[-1].lists[name].append(values_of(name, words, LISTS[name], self.folder))
        elif self.format == "program":
            raise Wrong(f"the program has the default for `{name}`, and no line for it (R17.3)")
        else:
            value = values_of(name, words, SINGLE_LINES[name], self.folder)[name]
            if (len(self.services), name) in self.set:
                raise Wrong(f"`{name}` stands twice")
            self.services[-1].single[name] = value
        self.set.add((len(self.services), name))

    def call(self, name, words):
        settings, calls = (LISTS, ("datagram",)) if self.format == "program" else (("service", *LISTS, *SINGLE), KINDS)
        if name not in calls:
            raise Wrong(f"{named(name)} is neither a setting ({' '.join(settings)}) nor a call ({' '.join(calls)})")
        fields = DATAGRAM if name == "datagram" else CALLS[KINDS[name]][1]
        self.calls.append((name, values_of(name, words, fields, self.folder)))


def read(data, file, format=None):
    """The input that a text says. Files that it names stand beside it."""
    text = Text(format, Path(file).parent)
    for number, (name, *words) in lines_of(data, file):
        try:
            if text.format is None and name not in FORMATS:
                raise Wrong("neither `program` nor `replay` stands in the first line: say --program or --replay")
            text.line(name, words)
        except Wrong as wrong:
            raise Wrong(f"{file}:{number}: {wrong}") from None
    if text.format is None:
        raise Wrong(f"{file}: nothing stands here: `program` or `replay` in the first line, then settings and calls")
    return Input(text.format, text.services, text.calls)


# ---- Writing

def shown_line(name, fields, values):
    words = [name]
    for one in fields:
        if one.many:
            words += [f"{one.name}={one.form.form.show(value)}" for value in values[one.name]]
        else:
            words.append(("" if one.placed else one.name + "=") + one.form.show(values[one.name]))
    return " ".join(words)


def shown_service(service, single):
    for name, fields in LISTS.items():
        for values in service.lists[name]:
            yield shown_line(name, fields, values)
    for name, fields in SINGLE_LINES.items() if single else ():
        yield shown_line(name, fields, service.single)


def shown_call(name, values):
    return shown_line(name, DATAGRAM if name == "datagram" else CALLS[KINDS[name]][1], values)


def shown(given):
    """The lines of an input in their normal form: every value stands there, also one that is the default."""
    yield given.format
    for number, service in enumerate(given.services):
        if given.format == "replay":
            yield f"service {number}"
        yield from shown_service(service, given.format == "replay")
    for call in given.calls:
        yield shown_call(*call)
