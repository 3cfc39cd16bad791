"""Inputs of `recordings` that each show what their name says, and random ones."""
import random

from .comparing import MASKED
from .formats import encode_datagrams
from .octets import u16, u32
from .recordings import LIMIT, encode

BYTES = bytes(range(40, 80))                                  # no two neighbours are the same


def recording(*parts, interface=7):
    return encode_datagrams([(interface, part) for part in parts])


def changed(data, *offsets):
    """The same bytes but for those at the offsets."""
    data = bytearray(data)
    for offset in offsets:
        data[offset] ^= 0x80
    return bytes(data)


def pairs():
    """Name, and one pair of datagrams."""
    yield "equal", BYTES, BYTES
    yield "first_byte", BYTES, changed(BYTES, 0)
    yield "last_byte", BYTES, changed(BYTES, 39)
    yield "one_byte_datagrams", b"\0", b"\1"
    yield "one_byte_equal", b"\0", b"\0"
    yield "each_byte", BYTES, changed(BYTES, *range(40))
    yield "every_other_byte", BYTES, changed(BYTES, *range(0, 40, 2))
    yield "two_runs", BYTES, changed(BYTES, 13, 14, 15, 17)
    yield "one_empty", BYTES, b""
    yield "both_empty", b"", b""
    yield "one_longer", BYTES, BYTES[:39]
    yield "one_longer_of_two", b"\1\2", b"\1"
    yield "one_longer_last_differs", BYTES, changed(BYTES, 38)[:39]
    yield "one_longer_last_but_one_differs", BYTES, changed(BYTES, 37)[:39]
    yield "longer_by_many", BYTES, BYTES[:20]
    yield "longer_by_many_all_differ", BYTES, changed(BYTES, *range(20))[:20]
    yield "masked_bytes", BYTES, changed(BYTES, *MASKED)
    yield "all_but_masked_bytes", BYTES, changed(BYTES, *set(range(40)) - set(MASKED))
    yield "masked_and_between", BYTES, changed(BYTES, *range(3, 13))
    yield "masked_bytes_of_no_version", bytes(20), changed(bytes(20), *MASKED)
    yield "low_bit", BYTES, bytes(byte ^ 1 for byte in BYTES)
    yield "greater_and_less", bytes((1, 2, 3)), bytes((2, 2, 2))
    for offset in range(14):
        yield f"only_{offset}", BYTES, changed(BYTES, offset)
    for length in range(13):                                  # the shorter one ends before, in and behind what is masked
        yield f"shorter_{length}", BYTES[:13], BYTES[:length]
        yield f"shorter_{length}_all_differ", BYTES, changed(BYTES, *range(length))[:length]
    for offset in (15, 16, 17, 31, 32, 33, 63, 64, 65, 255, 256, 257):
        yield f"far_{offset}", bytes(300), changed(bytes(300), offset)
        yield f"equal_from_{offset}", bytes(300), changed(bytes(300), *range(offset))
        yield f"shorter_far_{offset}", bytes(300), bytes(offset)


def several():
    """Name, and two recordings of several datagrams."""
    one, other = BYTES[:20], changed(BYTES[:20], 3, 9, 19)
    yield "second_and_fourth", recording(one, one, b"", other), recording(one, other, b"", one)
    yield "first_has_more", recording(one, one, one), recording(one, other)
    yield "second_has_more", recording(one), recording(other, b"", one)
    yield "more_bytes_in_fewer", recording(BYTES, BYTES), recording(one, one, one)
    yield "as_many_but_fewer_bytes", recording(b"", b""), recording(BYTES, BYTES)
    yield "partnerless_alone", recording(), recording(one)
    yield "no_datagram", recording(), recording()
    yield "other_interfaces", recording(one, other, interface=0), recording(one, other, interface=255)
    yield "one_left_out", recording(b"\1\2", b"\3\4", b"\5\6"), recording(b"\3\4", b"\5\6")
    yield "runs_at_both_ends", recording(changed(one, 19), changed(one, 0)), recording(one, one)
    yield "300_datagrams", recording(*[one] * 300), recording(*[one] * 255, *[other] * 45)
    yield "long_runs", recording(bytes(1000), bytes(65000)), recording(b"\1" * 700, changed(bytes(65000), *range(300, 64700)))
    yield "longest_datagrams", recording(bytes(65535)), recording(changed(bytes(65535), 0, 65534))
    yield "longest_and_empty", recording(bytes(65535)), recording(b"")
    yield "65535_datagrams", recording(*[b""] * 65535), recording(*[b""] * 65534, b"\0")
    yield "65535_and_65534_datagrams", recording(*[b""] * 65535), recording(*[b""] * 65534)
    yield "of_500000_bytes", recording(*[bytes(62500)] * 8), recording(*[bytes(62500)] * 7, changed(bytes(62500), 62499))


def malformed():
    """Name, and a recording that is none."""
    whole = recording(b"\1\2\3", b"\4\5")
    for length in range(len(whole)):
        yield f"cut_{length}", whole[:length]
    yield "trailing_byte", whole + b"\0"
    yield "trailing_datagram", whole + bytes(3)
    yield "count_too_high", u16(3) + whole[2:]
    yield "count_too_low", u16(1) + whole[2:]
    yield "count_65535", u16(65535) + whole[2:]
    yield "count_little_endian", b"\1\0\0\0\0"
    yield "length_little_endian", b"\0\1\0\1\0\7"
    yield "no_datagram_and_a_byte", bytes(3)


def rooms():
    """Name, room, and two recordings."""
    one, other = recording(bytes(20), bytes(7)), recording(changed(bytes(20), 2, 6, 7, 9), b"")
    yield "exact", 24, one, other
    for room in (0, 5, 6, 23, 25, 30):
        yield f"of_{room}", room, one, other
    yield "of_0_for_nothing", 0, one, one
    many = 1000
    yield "exact_for_1000_runs", 6 * many, recording(bytes(2 * many)), recording(b"\1\0" * many)
    yield "one_less_for_1000_runs", 6 * many - 1, recording(bytes(2 * many)), recording(b"\1\0" * many)
    yield "above_16_bits", 65536 + 5, recording(bytes(65000)), recording(b"\1\0" * 32500)
    pair = recording(*[bytes(58252)] * 6), recording(*[b"\1\0" * 29126] * 6)      # 174,756 runs
    yield "largest", LIMIT, *pair
    yield "exact_for_174756_runs", 1048536, *pair
    yield "one_less_for_174756_runs", 1048535, *pair
    yield "report_above_the_largest", LIMIT, recording(*[bytes(65532)] * 8), recording(*[b"\1\0" * 32766] * 8)


def bad_inputs():
    """Name and input; what the recordings are does not matter."""
    one, other = recording(b"\1\2"), recording(b"\1\3")
    none = b"\0\1"
    for name, first, second in (("", one, other), ("_and_31", none, other), ("_and_31_second", one, none)):
        whole = encode(0, 6, first, second)
        yield f"masked_2{name}", b"\2" + whole[1:]
        yield f"masked_255{name}", b"\xff" + whole[1:]
        yield f"room_too_large{name}", b"\1" + u32(LIMIT + 1) + whole[5:]
        yield f"largest_room_number{name}", b"\0" + u32(0xffffffff) + whole[5:]
        yield f"room_of_four_bytes{name}", b"\0" + u32(0x1000006) + whole[5:]
        yield f"first_too_long{name}", whole[:5] + u32(len(first) + len(second) + 1) + whole[9:]
        yield f"largest_length{name}", whole[:5] + u32(0xffffffff) + whole[9:]
        yield f"length_of_four_bytes{name}", whole[:5] + u32(0x1000000 + len(first)) + whole[9:]
    yield "masked_2_and_15", encode(2, 5, one, other)
    yield "first_too_long_and_15", encode(0, 0, one, other)[:5] + u32(1000) + one + other
    whole = encode(1, 6, one, other)
    for length in range(9 + len(one)):
        yield f"cut_{length}", whole[:length]
    yield "too_long", encode(0, 6, one, recording(*[bytes(65535)] * 16))
    full = encode(0, 6, one, b"")
    yield "too_long_by_a_byte", full + bytes(LIMIT + 1 - len(full))


def orders():
    """31 and 15 together, and good inputs of which a recording is empty or that are as long as may be."""
    one, other = recording(BYTES), recording(changed(BYTES, 20))
    yield "31_and_15", encode(0, 5, one, other + b"\0")
    yield "31_first_and_15", encode(0, 5, one[:-1], other)
    yield "31_of_both", encode(1, 0, b"", b"\0")
    yield "empty_first", encode(0, 9, b"", other)
    yield "empty_second", encode(0, 9, one, b"")
    yield "empty_both", encode(1, 9, b"", b"")
    full = encode(0, 6, recording(bytes(65535)), b"")
    rest = LIMIT - len(full) - 2 - 14 * (3 + 65535) - 3
    yield "of_1048576_bytes", full + recording(b"\1" + bytes(65534), *[bytes(65535)] * 13, bytes(rest))
    yield "of_1048576_bytes_31", full + bytes(LIMIT - len(full))


def named_inputs():
    for name, one, other in pairs():
        for masked in (0, 1):
            yield f"{name}{'_masked' if masked else ''}", encode(masked, 400, recording(one), recording(other))
            yield f"{name}_exchanged{'_masked' if masked else ''}", encode(masked, 400, recording(other), recording(one))
    for name, one, other in several():
        yield name, encode(0, 3000, one, other)
        yield f"{name}_exchanged", encode(1, 3000, other, one)
    right = recording(b"\1\2\4", b"\4")
    for name, one in malformed():
        yield f"31_{name}", encode(0, 40, one, right)
        yield f"31_{name}_second", encode(0, 40, right, one)
    for name, room, one, other in rooms():
        yield f"room_{name}", encode(0, room, one, other)
    for name, data in bad_inputs():
        yield f"bad_{name}", data
    yield from orders()


def by_chance(seed):
    """Two recordings, mostly alike, with few or many differences, and now and then something wrong."""
    chooser = random.Random(f"recordings {seed}")
    rate = chooser.choice((0, 0.01, 0.1, 0.5, 1))

    def other(part):
        part = bytes(byte ^ (chooser.choice((1, 128, 255)) if chooser.random() < rate else 0) for byte in part)
        way = chooser.random()
        return part[:chooser.randint(0, len(part))] if way < 0.15 else part + chooser.randbytes(chooser.randint(0, 20)) if way < 0.3 else part
    parts = [chooser.randbytes(chooser.choice((0, 1, 4, 5, 9, 11, 12, 20, 40, 60, 100, 1500))) for _ in range(chooser.choice((0, 1, 2, 5, 30)))]
    first = [(chooser.randrange(256), part) for part in parts]
    second = [(chooser.randrange(256), other(part)) for part in parts]
    if chooser.random() < 0.3:
        (first if chooser.random() < 0.5 else second).append((0, chooser.randbytes(chooser.randint(0, 30))))
    both = [encode_datagrams(one) for one in (first, second)]
    if chooser.random() < 0.2:
        one = chooser.randrange(2)
        place = chooser.randrange(len(both[one]))
        both[one] = chooser.choice((both[one][:place], both[one] + bytes(chooser.randint(1, 4)),
                                    both[one][:place] + bytes([chooser.randrange(256)]) + both[one][place + 1:]))
    data = encode(chooser.randrange(2), chooser.choice((0, 6, 60, 600, 6000, 60000)), *both)
    return data if chooser.random() < 0.9 else data[:chooser.randint(0, len(data))]


def stored():
    """crates/recordings/stdin: pairs of datagrams with as much as a report can show."""
    parts = [pair[1:] for pair in pairs() if "far" not in pair[0]]
    first, second = [one for one, _ in parts], [other for _, other in parts]
    return encode(1, 4000, recording(*first, *second, b"", interface=0), recording(*second, *first))
