"""A case of the program `test_vectors`, its line, and what the cases are made with."""
import ipaddress
import random
import struct

KINDS = ["", "right", "forbidden", "bad_source", "packet_malformed", "may_draw_error", "distinct", "options_whole",
         "inner_malformed", "dont_fragment", "is_solicitation"]
KIND = {name: i for i, name in enumerate(KINDS)}
for first, names in [(20, "sum complement read_outer header total source destination largest_packet embedded candidate"
                          " smallest due_after"),
                     (40, "link_local inner_packet wrap wrap_zeros too_big solicitation advertisement"),
                     (50, "list_new list_replaced list_rescheduled lists next")]:
    KIND.update((name, first + i) for i, name in enumerate(names.split()))

cases, lines = [], []
dice = random.Random(20261115)


def case(kind, name, answer, data=b"", n=0, m=0, x=0, y=0, form=0):
    """One case and its line. A change of a table (answer None) prints its name alone."""
    text = name if answer is None else name + ":"
    body = struct.pack(">BHHII", form, n, m, x, y) + data
    cases.append(struct.pack(">BHH", KIND[kind], len(text), 4 + len(text) + len(body)) + text.encode() + body)
    lines.append(text if answer is None else f"{text} {answer}")


def yes(b):
    return "yes" if b else "no"


def some(number, form=0):
    if number is None:
        return "none"
    return f"{number:0{form}x}" if form else str(number)


# RFC 1071: by the modulus, not by carries.
def ones(data):
    data += b"\0" * (len(data) % 2)
    t = sum(struct.unpack(f">{len(data) // 2}H", data))
    return 0 if t == 0 else (t - 1) % 65535 + 1


def v4(text):
    return int(ipaddress.IPv4Address(text))


def v6(text):
    return ipaddress.IPv6Address(text).packed


def noise(length):
    return bytes(dice.randrange(256) for _ in range(length))
