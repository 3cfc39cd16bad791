"""The forms of values: each reads and writes its bytes (big-endian), and parses and shows its text."""
import re

from .addresses import parsed_ipv4, parsed_ipv6, parsed_prefix, shown_ipv4, shown_ipv6, shown_prefix
from .wrong import Wrong, counted, named

LONGEST = 65535  # bytes of a packet, and entries of a list: lengths and counts have two bytes


def parsed_number(word, most):
    """Decimal, or hexadecimal behind 0x."""
    shape = re.fullmatch(r"0x([0-9a-fA-F]{1,8})|([0-9]{1,10})", word)
    value = shape and (int(shape[1], 16) if shape[1] else int(shape[2]))
    if shape is None or value > most:
        raise Wrong(f"{named(word)} is no number from 0 to {most:,}")
    return value


class Number:
    """A number of so many bytes."""

    def __init__(self, width, most=None):
        self.width, self.most = width, (1 << 8 * width) - 1 if most is None else most

    def read(self, reader):
        value = reader.number(self.width)
        if value > self.most:
            reader.bad(f"{value} where {self.most} is the most", self.width)
        return value

    def write(self, value):
        return value.to_bytes(self.width, "big")

    def parse(self, word):
        return parsed_number(word, self.most)

    def show(self, value):
        return str(value)


class Flags(Number):
    """A byte of which two bits have letters; the others are not looked at, but kept: such a byte is shown as a number."""

    def __init__(self, letters):
        super().__init__(1)
        self.letters = dict(zip(letters, (0x80, 0x40)))

    def parse(self, word):
        if word == "none":
            return 0
        if word and len(set(word)) == len(word) and set(word) <= set(self.letters):
            return sum(self.letters[letter] for letter in word)
        if word.startswith("0x"):
            return super().parse(word)
        raise Wrong(f"{named(word)} is neither `none`, letters of {''.join(self.letters)} nor a number as 0xc0")

    def show(self, value):
        if value & 0x3F:
            return f"0x{value:02x}"
        return "".join(letter for letter, bit in self.letters.items() if value & bit) or "none"


class Choice(Number):
    """A byte that stands for a word."""

    def __init__(self, *words):
        super().__init__(1, len(words) - 1)
        self.words = words

    def parse(self, word):
        if word not in self.words:
            raise Wrong(f"{named(word)} is none of {', '.join(self.words)}")
        return self.words.index(word)

    def show(self, value):
        return self.words[value]


class Octets:
    """So many bytes, whose text has functions of its own."""

    def __init__(self, width, parse, show):
        self.width, self.parse, self.show = width, parse, show

    def read(self, reader):
        return reader.take(self.width)

    def write(self, value):
        return value


IPV4, IPV6 = Octets(4, parsed_ipv4, shown_ipv4), Octets(16, parsed_ipv6, shown_ipv6)
ON_LINK_PREFIX = Octets(8, parsed_prefix, shown_prefix)


class Reporting:
    """The reporting address: a flag, and behind 1 an address; None is the default."""

    def read(self, reader):
        return IPV6.read(reader) if Number(1, 1).read(reader) else None

    def write(self, value):
        return b"\0" if value is None else b"\1" + value

    def parse(self, word):
        return None if word == "default" else IPV6.parse(word)

    def show(self, value):
        return "default" if value is None else IPV6.show(value)


class Entry:
    """What an advertisement names: prefix length, parts and prefix; in a text ADDRESS/LENGTH and the parts, with commas between."""

    def __init__(self, *parts):
        self.parts = parts

    def read(self, reader):
        length, *parts = [form.read(reader) for form in (Number(1), *self.parts)]
        return (IPV6.read(reader), length, *parts)

    def write(self, value):
        address, length, *parts = value
        return bytes([length]) + b"".join(form.write(part) for form, part in zip(self.parts, parts)) + address

    def parse(self, word):
        first, *parts = word.split(",")
        address, slash, length = first.partition("/")
        if not slash or len(parts) != len(self.parts):
            raise Wrong(f"{named(word)} is not ADDRESS/LENGTH and {len(self.parts)} values, with commas between")
        return (IPV6.parse(address), parsed_number(length, 255), *(form.parse(part) for form, part in zip(self.parts, parts)))

    def show(self, value):
        address, length, *parts = value
        return ",".join([f"{IPV6.show(address)}/{length}"] + [form.show(part) for form, part in zip(self.parts, parts)])


class Many:
    """A count of two bytes and so many values; in a text the name comes so often."""

    def __init__(self, form):
        self.form = form

    def read(self, reader):
        return [self.form.read(reader) for _ in range(reader.number(2))]

    def write(self, values):
        if len(values) > LONGEST:
            raise Wrong(f"{len(values):,} values where the format counts to {LONGEST:,}")
        return len(values).to_bytes(2, "big") + b"".join(map(self.form.write, values))


class Packet:
    """Bytes behind their length. A text has hexadecimal digits, parts of them joined by `+`, each so often as behind its `*`; or @FILE."""

    LEAST_RUN = 24  # equal bytes from which on a run is shown as one

    def read(self, reader):
        return reader.take(reader.number(2))

    def write(self, value):
        return len(value).to_bytes(2, "big") + value

    def parse(self, word):
        value = b""
        for part in word.split("+") if word else ():
            digits, star, times = part.partition("*")
            if not re.fullmatch(r"(?:[0-9a-fA-F]{2})+", digits):
                raise Wrong(f"{named(part)} is no packet: pairs of hexadecimal digits, with * a number of times, with + more; or @FILE")
            times = parsed_number(times, LONGEST) if star else 1
            if len(value) + len(digits) // 2 * times > LONGEST:
                raise Wrong(f"a packet of more than {LONGEST:,} bytes")
            value += bytes.fromhex(digits) * times
        return value

    def parse_file(self, path):
        try:
            with open(path, "rb") as file:
                value = file.read(LONGEST + 1)
        except (OSError, ValueError) as error:
            raise Wrong(f"{named('@' + str(path))}: {getattr(error, 'strerror', None) or error}") from None
        if len(value) > LONGEST:
            raise Wrong(f"{named('@' + str(path))} has more than {counted(LONGEST, 'byte')}")
        return value

    def show(self, value):
        parts, place = [], 0
        for run in re.finditer(rb"(?s)(.)\1{%d,}" % (self.LEAST_RUN - 1), value):
            parts += [value[place:run.start()].hex()] if run.start() > place else []
            parts.append(f"{run[1].hex()}*{len(run[0])}")
            place = run.end()
        return "+".join(parts + ([value[place:].hex()] if place < len(value) else []))
