"""Cases of packets with extension headers, by R25 of docs/RULES.md and by RFC 2460, 4."""
import struct

from vectors_cases import dice, noise
from vectors_rules import EXTENSIONS, FRAGMENT, ICMPV6, draws, inner

WORDS = {0: "hop-by-hop options", 43: "a routing header", 44: "a fragment header", 60: "destination options"}
OPTIONS, NONE = 60, 59
ERROR, ECHO, REDIRECT = (bytes([kind]) for kind in (1, 128, 137))


def header(number, behind, units=0, fill=b"\x80"):
    """An extension header, and the number of what stands behind it. A fragment's offset is 0."""
    if number == FRAGMENT:
        return fragment(behind)
    return bytes([behind, units]) + fill * (8 * units + 6)


def fragment(behind, bits=0, second=0):
    """`bits` are the offset in the upper 13 and the flags."""
    return struct.pack(">BBHI", behind, second, bits, 0x80808080)


def whole(number, payload, source="fe80::5efe:10.0.0.2"):
    return inner(len(payload), number, source=source) + payload


def chain(numbers, last, payload=b""):
    """A packet with the shortest headers of these numbers, then the last number and the payload."""
    after = list(numbers[1:]) + [last]
    return whole(numbers[0], b"".join(map(header, numbers, after)) + payload)


def each_header():
    for number in EXTENSIONS:
        for payload, words in ((ERROR, "error"), (REDIRECT, "redirect"), (ECHO, "echo")):
            draws(f"{words} behind {WORDS[number]}", chain([number], ICMPV6, payload))
        draws(f"next header {number} without payload", inner(next_header=number))
        draws(f"next header {number} behind options, no byte left", chain([OPTIONS], number))
        draws(f"7 bytes of {WORDS[number]}", whole(number, header(number, NONE)[:7]))
        draws(f"8 bytes of {WORDS[number]}", whole(number, header(number, NONE)))
        draws(f"8 bytes of {WORDS[number]} before ICMPv6", whole(number, header(number, ICMPV6)))
    for kind in (0, 127, 129, 136, 138):
        draws(f"type {kind} behind options", chain([OPTIONS], ICMPV6, bytes([kind])))
    for payload, words in ((ERROR, "error"), (ECHO, "echo")):
        draws(f"{words} behind all four", chain(EXTENSIONS, ICMPV6, payload))
        draws(f"{words} behind two fragment headers", chain([FRAGMENT, FRAGMENT], ICMPV6, payload))
        draws(f"{words} behind hop-by-hop options in the middle", chain([43, 0, 43], ICMPV6, payload))


def lengths():
    for number in (0, 43, 60):
        for payload, fill, words in ((ERROR, ECHO, "error"), (ECHO, ERROR, "echo")):
            draws(f"{words} behind 16 bytes of {WORDS[number]}", whole(number, header(number, ICMPV6, 1, fill) + payload))
        draws(f"15 of 16 bytes of {WORDS[number]}", whole(number, header(number, NONE, 1)[:15]))
    draws("24 of 2048 bytes of options", whole(OPTIONS, header(OPTIONS, NONE, 255)[:24]))
    draws("echo behind 2048 bytes of options", whole(OPTIONS, header(OPTIONS, ICMPV6, 255, ERROR) + ECHO))
    for second in (7, 255):
        for payload, words in ((ERROR, "error"), (ECHO, "echo")):
            draws(f"{words} behind a fragment header's second byte {second}", whole(FRAGMENT, fragment(ICMPV6, 0, second) + payload))


def fragments():
    for bits in (1, 6, 8, 0x80, 0x100, 0x8000, 0xfff8):
        draws(f"echo behind fragment bits {bits:04x}", whole(FRAGMENT, fragment(ICMPV6, bits) + ECHO))
    draws("error in a first fragment", whole(FRAGMENT, fragment(ICMPV6, 1) + ERROR))
    draws("UDP in a later fragment", whole(FRAGMENT, fragment(17, 8) + ECHO))
    draws("a later fragment behind a first one", whole(FRAGMENT, fragment(FRAGMENT, 1) + fragment(NONE, 8)))
    draws("a later fragment behind options", whole(OPTIONS, header(OPTIONS, FRAGMENT) + fragment(NONE, 8)))


def upper_layers():
    """What looks like a header behind such a number is none."""
    for number in (6, 17, 50, 51, 59, 135):
        draws(f"next header {number} before an error", whole(number, header(0, ICMPV6) + ERROR))
    for number in (6, 17, 50, 51):
        draws(f"next header {number} behind options, no byte left", chain([OPTIONS], number))


def counts():
    for payload, words, numbers in ((ERROR, "error", (13, 25, 100)), (ECHO, "echo", (12, 13, 24, 25, 100))):
        for count in numbers:
            draws(f"{words} behind {count} headers", chain((EXTENSIONS * count)[:count], ICMPV6, payload))
    draws("13 headers without their last byte", chain((EXTENSIONS * 4)[:13], NONE)[:-1])


def others():
    for source in ("ff02::1", "::", "::1"):
        draws(f"echo behind options from {source}", whole(OPTIONS, header(OPTIONS, ICMPV6) + ECHO, source))
    for length in (0, 7, 9, 39):
        draws(f"{length} bytes", inner()[:length])
    for number in (0, ICMPV6):
        draws(f"39 bytes, next header {number}", inner(next_header=number)[:39])


def by_chance():
    """Headers of any number, length and offset, most of them whole."""
    for i in range(8):
        numbers, payload = dice.choices(EXTENSIONS, k=dice.randrange(1, 4)) + [dice.choice([ICMPV6, ICMPV6, NONE, 6])], b""
        for number, behind in zip(numbers, numbers[1:]):
            bits = dice.choice([0, 0, 0, 1, 7, 8])
            payload += fragment(behind, bits, dice.randrange(256)) if number == FRAGMENT else header(number, behind, dice.randrange(3), noise(1))
        payload += noise(dice.choice([0, 1, 1, 9]))
        draws(f"chain {i}", whole(numbers[0], payload[:len(payload) - dice.choice([0, 0, 0, 0, 1])]))


def extensions():
    for part in (each_header, lengths, fragments, upper_layers, counts, others, by_chance):
        part()
