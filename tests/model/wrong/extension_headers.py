"""Wrong walks behind extension headers (R25)."""
from .edits import wrong

# Texts of `rules` that more than one edit changes
WALK = "    while kind in (0, 43, 44, 60):\n"
LENGTH = "return 8 if kind == 44 or len(rest) < 2 else 8 * (rest[1] + 1)"
PAST = "        if length > len(rest):\n            return True\n"
LATER = "        if kind == 44 and number(rest[2:4]) >> 3 != 0:\n            return True\n"
ON = "        kind, rest = rest[0], rest[length:]\n"
ICMPV6 = "return kind == 58 and (len(rest) == 0 or rest[0] < 128 or rest[0] == 137)"
MEASURED = WALK + "        length = extension_length(kind, rest)\n"
ALL = MEASURED + PAST + LATER + ON + "    " + ICMPV6
JUDGED = "return draws_none(packet[6], packet[40:])"


def counted(most, past):
    """At most so many headers followed; `past` is what a further one gives."""
    return "    followed = 0\n" + WALK + f"        followed += 1\n        if followed > {most}:\n            return {past}\n"


for name, old, new in (
        ("the first next header alone looked at", WALK, "    while False:\n"),
        *[(f"{number} not followed", WALK, WALK.replace("in (", f"!= {number} and kind in (")) for number in (0, 43, 44, 60)],
        *[(f"{number} draws none at once", WALK, f"    if kind == {number}:\n        return True\n" + WALK) for number in (0, 43, 44, 60)],
        *[(f"{number} followed too", WALK, WALK.replace("60", f"60, {number}"))
          for number in (1, 4, 6, 17, 41, 42, 45, 50, 51, 57, 59, 61, 135, 139, 140, 255)],
        *[(f"{number} followed too, with 8 bytes", MEASURED,
           MEASURED.replace("60", f"60, {number}").replace("= ext", f"= 8 if kind == {number} else ext")) for number in (50, 51, 59)],
        ("51 followed too, by its own units of 4", MEASURED,
         MEASURED.replace("60", "60, 51").replace("= ext", "= 4 * (rest[1] + 2) if kind == 51 and len(rest) > 1 else ext")),
        *[(f"{number} draws none", ICMPV6, f"{ICMPV6} or kind == {number}") for number in (6, 17, 50, 51, 59)],
        ("only 6, 17 and 58 known for upper layers", ICMPV6, f"{ICMPV6} or kind not in (6, 17, 58)"),
        ("hop-by-hop options followed in the first place alone", WALK, "    first = rest\n    while kind in (43, 44, 60) or kind == 0 and rest is first:\n"),
        ("hop-by-hop options elsewhere than first draw none", ON, ON + "        if kind == 0:\n            return True\n"),
        ("each number followed once", WALK, "    left = [0, 43, 44, 60]\n    while kind in left:\n        left.remove(kind)\n"),
        ("each number followed twice", WALK, "    left = 2 * [0, 43, 44, 60]\n    while kind in left:\n        left.remove(kind)\n"),
        ("the same number twice in a row not followed", ON, "        before = kind\n" + ON + "        if kind == before:\n            break\n"),
        ("a second fragment header draws none", WALK,
         "    fragments = 0\n" + WALK + "        fragments += kind == 44\n        if fragments > 1:\n            return True\n"),
        *[(f"at most {most} headers followed", WALK, counted(most, False)) for most in (1, 12, 13, 25, 36, 99, 100, 1000, 8000)],
        *[(f"more than {most} headers draw none", WALK, counted(most, True)) for most in (8000, 1000, 100, 99, 36, 25, 13, 12, 1)],
        ("a header's length without its first unit", LENGTH, LENGTH.replace("8 * (rest[1] + 1)", "8 * (rest[1] or 1)")),
        ("a header's length with a unit more", LENGTH, LENGTH.replace("rest[1] + 1", "rest[1] + 2")),
        ("a header's length in units of 4", LENGTH, LENGTH.replace("8 * (rest[1] + 1)", "4 * (rest[1] + 1)")),
        ("a header's length in units of 4, two of them not counted", LENGTH, LENGTH.replace("8 * (rest[1] + 1)", "4 * (rest[1] + 2)")),
        ("a header's length in bytes", LENGTH, LENGTH.replace("8 * (rest[1] + 1)", "(rest[1] + 1)")),
        ("a header's length in bytes behind the first 8", LENGTH, LENGTH.replace("8 * (rest[1] + 1)", "(rest[1] + 8)")),
        ("a header's length of 7 bits", LENGTH, LENGTH.replace("rest[1] + 1", "(rest[1] & 127) + 1")),
        ("a header's length wraps at 2,048", LENGTH, LENGTH.replace("8 * (rest[1] + 1)", "(8 * (rest[1] + 1) % 2048 or 8)")),
        ("a header's length from its third byte", LENGTH, LENGTH.replace("rest[1] + 1", "(rest + bytes(3))[2] + 1")),
        ("a header's length from its first byte", LENGTH, LENGTH.replace("rest[1] + 1", "rest[0] + 1")),
        ("a fragment header's length by its second byte", LENGTH, LENGTH.replace("kind == 44 or ", "")),
        ("headers' lengths always 8", LENGTH, "return 8"),
        *[(f"the length of {number} always 8", LENGTH, LENGTH.replace("kind == 44", f"kind in (44, {number})")) for number in (0, 43, 60)],
        ("a fragment header of 16 bytes", LENGTH, "return 16 if kind == 44 else 8 if len(rest) < 2 else 8 * (rest[1] + 1)"),
        ("the number behind a header from its second byte", ON, "        kind, rest = rest[1], rest[length:]\n"),
        ("the number behind a header from its third byte", ON, "        kind, rest = rest[2], rest[length:]\n"),
        ("the number behind a header from its last byte", ON, "        kind, rest = rest[length - 1], rest[length:]\n"),
        ("the number behind a header from the byte after it", ON, "        kind, rest = (rest[length:] + b'\\0')[0], rest[length:]\n"),
        ("a chain that runs past draws", PAST, PAST.replace("True", "False")),
        ("a header cut off taken for a whole one", PAST, "        if len(rest) < 2:\n            return True\n"),
        ("a header of which 8 bytes are there taken for a whole one", PAST, "        if len(rest) < 8:\n            return True\n"),
        ("a header without its last byte taken", PAST, PAST.replace("len(rest)", "len(rest) + 1")),
        ("a header without its last 8 bytes taken", PAST, "        if length > len(rest) + 8 or len(rest) < 8:\n            return True\n"),
        ("a header that ends the packet runs past", PAST, PAST.replace(">", ">=")),
        ("a header that would start at the packet's end taken for an upper layer", PAST, "        if len(rest) == 0:\n            return False\n" + PAST),
        ("a header cut off draws", PAST, "        if 0 < len(rest) < length:\n            return False\n" + PAST),
        ("a fragment header cut off draws", PAST, "        if kind == 44 and length > len(rest):\n            return False\n" + PAST),
        ("a fragment header asked for 4 bytes alone", PAST, "        if length > len(rest) and (kind != 44 or len(rest) < 4):\n            return True\n"),
        ("a later fragment not asked", LATER, ""),
        ("a later fragment draws", LATER, LATER.replace("True", "False")),
        ("a later fragment asked in the first place alone", MEASURED + PAST + LATER,
         "    first = rest\n" + MEASURED + PAST + LATER.replace("kind == 44", "kind == 44 and rest is first")),
        ("a later fragment asked behind another header alone", MEASURED + PAST + LATER,
         "    first = rest\n" + MEASURED + PAST + LATER.replace("kind == 44", "kind == 44 and rest is not first")),
        ("a later fragment of ICMPv6 alone draws none", LATER, LATER.replace("!= 0", "!= 0 and rest[0] == 58")),
        ("a later fragment of anything but ICMPv6 alone draws none", LATER, LATER.replace("!= 0", "!= 0 and rest[0] != 58")),
        ("a later fragment draws none only if others follow", LATER, LATER.replace("!= 0", "!= 0 and rest[3] & 1")),
        ("a later fragment draws none only as the last", LATER, LATER.replace("!= 0", "!= 0 and not rest[3] & 1")),
        ("a fragment's offset with the three bits below it", LATER, LATER.replace(" >> 3", "")),
        ("a fragment's offset with the reserved bits", LATER, LATER.replace(" >> 3", " >> 1")),
        ("a fragment's offset as in IPv4, the lower 13 bits", LATER, LATER.replace(" >> 3", " & 0x1fff")),
        ("a fragment's offset by its high byte", LATER, LATER.replace("number(rest[2:4]) >> 3", "rest[2]")),
        ("a fragment's offset by its low byte", LATER, LATER.replace("number(rest[2:4]) >> 3", "rest[3] >> 3")),
        *[(f"a fragment's offset without bit {bit}", LATER, LATER.replace(">> 3", f"& 0x{0xfff8 & ~(1 << bit):04x}")) for bit in range(3, 16)],
        ("a fragment's offset from its fourth byte on", LATER, LATER.replace("rest[2:4]", "rest[4:6]")),
        ("a fragment's offset from its first byte on", LATER, LATER.replace("rest[2:4]", "rest[1:3]")),
        ("only offset 1 taken for a later fragment", LATER, LATER.replace("!= 0", "== 1")),
        ("more-fragments draws none", LATER, LATER.replace(">> 3 != 0", "not in (0, 2, 4, 6)")),
        ("more-fragments not followed", LATER, "        if kind == 44 and rest[3] & 1:\n            return False\n" + LATER),
        ("an offset asked of every header", LATER, LATER.replace("kind == 44 and ", "")),
        ("ICMPv6 of which no byte is left draws", ICMPV6, ICMPV6.replace("kind == 58", "kind == 58 and len(rest) > 0")),
        ("any upper layer of which no byte is left draws none", ICMPV6, f"{ICMPV6} or len(rest) == 0"),
        *[(f"ICMPv6 of fewer than {length} bytes draws none", ICMPV6, ICMPV6.replace("== 0", f"< {length}")) for length in (2, 4, 8)],
        ("the type from the first payload byte", ALL, "    payload = rest\n" + ALL.replace("rest[0] < 128 or rest[0]", "payload[0] < 128 or payload[0]")),
        ("any chain draws none", JUDGED, "return packet[6] in (0, 43, 44, 60) or draws_none(packet[6], packet[40:])"),
        ("ICMPv6 behind a header draws none", JUDGED, JUDGED + " or packet[6] in (0, 43, 44, 60) and packet[40] == 58"),
        ("headers looked for from byte 41 on", JUDGED, "return draws_none(packet[6], packet[41:])"),
        ("the first number from the hop limit", JUDGED, "return draws_none(packet[7], packet[40:])"),
        ("the quoted bytes alone looked at", JUDGED, "return draws_none(packet[6], packet[40:1232])"),
        ("1,280 bytes alone looked at", JUDGED, "return draws_none(packet[6], packet[40:1280])"),
        ("the last byte not looked at", JUDGED, "return draws_none(packet[6], packet[40:-1])"),
        ("a byte behind the packet looked at", JUDGED, "return draws_none(packet[6], packet[40:] + b'\\0')"),
        ("the source not asked behind extension headers", "if source[0] == 0xff or source == UNSPECIFIED:",
         "if packet[6] not in (0, 43, 44, 60) and (source[0] == 0xff or source == UNSPECIFIED):")):
    wrong("rules", "extension headers: " + name, old, new)
