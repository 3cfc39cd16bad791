"""Wrong readings of solicitations, and wrong advertisements written."""
from .edits import wrong

# ---- Who may ask, from where to where, and what the call leaves

ASKER = "need(asker[:8] == LINK_LOCAL and self.settings.isatap(asker), 25)"
WRITTEN = "        output[:len(answer)] = answer\n        return f\"written"

for name, old, new in (
        ("bytes behind the payload refused with 8", "packet = asked[:inner_length(asked)]",
         "need(inner_length(asked) == len(asked), 8); packet = asked"),
        ("bytes behind the payload walked too", "packet = asked[:inner_length(asked)]", "inner_length(asked); packet = asked"),
        ("the locator's number not asked", "        source = self.locator(index)\n        check_solicitation",
         "        source = self.locator(index % len(self.settings.locators))\n        check_solicitation"),
        ("the solicitation not asked", "        check_solicitation(packet)\n", ""),
        ("the asker not asked", ASKER, "pass"),
        ("an asker of any on-link prefix taken", ASKER, "need(self.settings.isatap(asker), 25)"),
        ("an asker of any identifier taken", ASKER, "need(asker[:8] == LINK_LOCAL, 25)"),
        ("an asker of fe80::/10 taken", ASKER, "need(asker[:2] == LINK_LOCAL[:2] and self.settings.isatap(LINK_LOCAL + asker[8:]), 25)"),
        ("an asker with 00 alone", ASKER, ASKER.replace(", 25", " and asker[8] == 0, 25")),
        ("an asker with 02 alone", ASKER, ASKER.replace(", 25", " and asker[8] == 2, 25")),
        ("a forbidden asker refused with 25", ASKER, ASKER.replace(", 25", " and not forbidden(asker[12:]), 25")),
        ("our own address as asker refused with 25", ASKER, ASKER.replace(", 25", " and not self.settings.own(asker[12:]), 25")),
        ("a listed router as asker refused with 25", ASKER, ASKER.replace(", 25", " and not self.listed(asker[12:]), 25")),
        (":: taken for an asker", ASKER, "need(asker == bytes(16) or asker[:8] == LINK_LOCAL and self.settings.isatap(asker), 25)"),
        ("a wrong asker refused with 24", ASKER, ASKER.replace("25", "24")),
        ("a wrong asker refused with 9", ASKER, ASKER.replace("25", "9")),
        ("the operator's lists not asked", "        operator.check()\n", "        operator.prefixes, operator.routes = ([(min(128, one[0]), *one[1:])"
         " for one in some] for some in (operator.prefixes, operator.routes))\n"),
        ("destination formed anew", "router_advertisement(source, asker, operator)",
         "router_advertisement(source, LINK_LOCAL + b'\\0\\0\\x5e\\xfe' + asker[12:], operator)"),
        ("destination all nodes", "router_advertisement(source, asker, operator)",
         "router_advertisement(source, b'\\xff\\2' + bytes(13) + b'\\1', operator)"),
        ("from the first locator", "router_advertisement(source, asker, operator)",
         "router_advertisement(self.settings.locators[0][0], asker, operator)"),
        ("from the address that was asked", "        answer = router_advertisement(source, asker, operator)\n",
         "        answer = router_advertisement(packet[36:40], asker, operator)\n"),
        ("source with 02", "        answer = router_advertisement(source, asker, operator)\n",
         "        answer = router_advertisement(source, asker, operator)\n        answer = answer[:16] + b'\\2' + answer[17:]\n"),
        ("a byte less of room taken", "        need(len(answer) <= len(output), 15)\n        output[:len(answer)] = answer\n        return f\"written",
         "        need(len(answer) <= len(output) + 1, 15)\n        output[:len(answer)] = answer[:len(output)]\n        return f\"written"),
        ("a byte more of room asked", "need(len(answer) <= len(output), 15)\n        output[:len(answer)] = answer\n        return f\"written",
         "need(len(answer) < len(output), 15)\n        output[:len(answer)] = answer\n        return f\"written"),
        ("504 bytes of room asked", "need(len(answer) <= len(output), 15)\n        output[:len(answer)] = answer\n        return f\"written",
         "need(504 <= len(output), 15)\n        output[:len(answer)] = answer\n        return f\"written"),
        ("as much written as there is room for", "        answer = router_advertisement(source, asker, operator)\n",
         "        answer = router_advertisement(source, asker, operator)\n        output[:] = answer[:len(output)] + output[len(answer):]\n"),
        ("bytes behind cleared", WRITTEN, "        output[:] = answer + bytes(len(output) - len(answer))\n        return f\"written"),
        ("nothing written", WRITTEN, "        return f\"written"),
        ("the room named as the length", "return f\"written {len(answer)}\"", "return f\"written {len(output)}\""),
        ("the payload's length named", "return f\"written {len(answer)}\"", "return f\"written {len(answer) - 40}\""),
        ("an identification used", WRITTEN, "        self.identification = (self.identification + 1) % 65536\n" + WRITTEN),
        ("the latest time raised", WRITTEN, "        self.raise_time(self.latest + 1)\n" + WRITTEN),
        ("the latest time raised by every call", "        packet = asked[:inner_length(asked)]\n",
         "        self.raise_time(self.latest + 1)\n        packet = asked[:inner_length(asked)]\n"),
        ("the latest time set to 0", WRITTEN, "        self.shared.latest = 0\n" + WRITTEN),
        ("the asker due now if it is listed", WRITTEN, "        self.set_due(asker[12:], self.latest)\n" + WRITTEN),
        ("the asker due later if it is listed", WRITTEN, "        self.set_due(asker[12:], self.latest + 3600)\n" + WRITTEN),
        ("the first router due now", WRITTEN, "        self.routers = [(one, self.latest if place == 0 else due) for place, (one, due)"
         " in enumerate(self.routers)]\n" + WRITTEN),
        ("the asker listed", WRITTEN, "        self.routers = ([one for one in self.routers if one[0] != asker[12:]] + [(asker[12:], 0)])[-16:]\n" + WRITTEN),
        ("the asker's size forgotten", WRITTEN, "        self.shared.record = [one for one in self.record if one[0] != asker[12:]]\n" + WRITTEN)):
    wrong("node", "advertising: " + name, old, new)

# ---- Solicitations

CHECKSUM = "checksum_right(pseudo_header(source, packet[24:40], len(message)) + message)"
UNSPECIFIED = "need(source != UNSPECIFIED or 1 not in kinds, 24)"

for name, old, new in (
        ("next header not asked", "    need(packet[6] == 58, 24)\n", ""),
        ("next header below 58 taken", "need(packet[6] == 58, 24)", "need(packet[6] <= 58, 24)"),
        ("hop limit not asked", "    need(packet[7] == 255, 24)\n", ""),
        ("hop limit 254 taken", "need(packet[7] == 255, 24)", "need(packet[7] >= 254, 24)"),
        ("hop limit refused with 8", "need(packet[7] == 255, 24)", "need(packet[7] == 255, 8)"),
        ("hop limit refused with 20", "need(packet[7] == 255, 24)", "need(packet[7] == 255, 20)"),
        ("checksum not asked", f"    need({CHECKSUM}, 24)\n", ""),
        ("a checksum field of 0 admitted", f"need({CHECKSUM}, 24)", f"need({CHECKSUM} or message[2:4] == b'\\0\\0', 24)"),
        ("a checksum field of 0 refused", f"need({CHECKSUM}, 24)", f"need({CHECKSUM} and message[2:4] != b'\\0\\0', 24)"),
        ("a checksum field of FFFF refused", f"need({CHECKSUM}, 24)", f"need({CHECKSUM} and message[2:4] != b'\\xff\\xff', 24)"),
        ("checksum over 8 bytes", "len(message)) + message), 24)", "len(message)) + message[:8]), 24)"),
        ("checksum without the pseudo header", CHECKSUM, "checksum_right(message)"),
        ("checksum without the destination", CHECKSUM, CHECKSUM.replace("packet[24:40]", "bytes(16)")),
        ("message of 7 bytes taken", "need(len(message) >= 8, 24)", "need(len(message) >= 7, 24)"),
        ("message of 6 bytes taken", "need(len(message) >= 8, 24)", "need(len(message) >= 6, 24)"),
        ("message of 9 bytes asked", "need(len(message) >= 8, 24)", "need(len(message) >= 9, 24)"),
        ("message of 16 bytes asked", "need(len(message) >= 8, 24)", "need(len(message) >= 16, 24)"),
        ("message of 8 bytes alone taken", "need(len(message) >= 8, 24)", "need(len(message) == 8, 24)"),
        ("type not asked", "    need(message[0] == 133, 24)\n", ""),
        ("type 134 taken", "need(message[0] == 133, 24)", "need(message[0] in (133, 134), 24)"),
        ("type 135 taken", "need(message[0] == 133, 24)", "need(message[0] in (133, 135), 24)"),
        ("code not asked", "    need(message[1] == 0, 24)\n", ""),
        ("reserved field asked to be 0", "    need(message[1] == 0, 24)\n", "    need(message[1] == 0 and message[4:8] == bytes(4), 24)\n"),
        ("options walked from byte 16 on", "walked(message[8:], 24)", "walked(message[16:], 24)"),
        ("options walked from byte 4 on", "walked(message[8:], 24)", "walked(message[4:], 24)"),
        ("unknown options refused", UNSPECIFIED, "need(all(kind in (1, 2, 3, 4, 5) for kind in kinds), 24); " + UNSPECIFIED),
        ("a source link-layer address from :: taken", "    " + UNSPECIFIED + "\n", ""),
        ("a source link-layer address refused whatever the source", UNSPECIFIED, "need(1 not in kinds, 24)"),
        ("a source link-layer address in the first place alone looked for", UNSPECIFIED, "need(source != UNSPECIFIED or 1 not in kinds[:1], 24)"),
        ("a source link-layer address in the last place alone looked for", UNSPECIFIED, "need(source != UNSPECIFIED or 1 not in kinds[-1:], 24)"),
        ("a target link-layer address looked for", UNSPECIFIED, "need(source != UNSPECIFIED or 2 not in kinds, 24)"),
        ("a source link-layer address of length 1 alone looked for", "kinds = [option[0] for option in walked(message[8:], 24)]",
         "kinds = [option[0] for option in walked(message[8:], 24) if option[1] == 1]"),
        *[(f"a source link-layer address among the first {count} options alone looked for", UNSPECIFIED,
           f"need(source != UNSPECIFIED or 1 not in kinds[:{count}], 24)") for count in (2, 4, 12, 24)],
        (":: read as ::/64", UNSPECIFIED, "need(source[:8] != bytes(8) or 1 not in kinds, 24)"),
        (":: read as ::/96", UNSPECIFIED, "need(source[:12] != bytes(12) or 1 not in kinds, 24)"),
        (":: read as 15 zero bytes", UNSPECIFIED, "need(source[:15] != bytes(15) or 1 not in kinds, 24)"),
        (":: read as its last 15 bytes", UNSPECIFIED, "need(source[1:] != bytes(15) or 1 not in kinds, 24)"),
        (":: read as any address that embeds 0.0.0.0", UNSPECIFIED, "need(source[12:] != bytes(4) or 1 not in kinds, 24)"),
        (":: refused with 24 whatever the options", UNSPECIFIED, "need(source != UNSPECIFIED, 24)"),
        (":: refused with 24 for any option", UNSPECIFIED, "need(source != UNSPECIFIED or not kinds, 24)"),
        ("destination asked to be link-local or multicast", "    need(message[1] == 0, 24)\n",
         "    need(message[1] == 0 and packet[24] >= 0xfe, 24)\n")):
    wrong("rules", "solicitations: " + name, old, new)

# ---- What the operator sets

MANY, ROUTES = "need(len(self.prefixes) <= 8, 26)", "need(len(self.routes) <= 8, 26)"
LONG = "need(all(length <= 128 for length, *_ in self.prefixes), 26)"
LONG_ROUTE = "need(all(length <= 128 for length, *_ in self.routes), 26)"
CUT = "{0} = [(min(128, one[0]), *one[1:]) for one in {0}]"

for name, old, new in (
        ("more than 8 prefixes read as 8", MANY, "self.prefixes = self.prefixes[:8]"),
        ("more than 8 routes read as 8", ROUTES, "self.routes = self.routes[:8]"),
        ("more than 8 prefixes written", "        " + MANY + "\n", ""),
        ("more than 8 routes written", "        " + ROUTES + "\n", ""),
        ("9 prefixes written", MANY, "need(len(self.prefixes) <= 9, 26)"),
        ("9 routes written", ROUTES, "need(len(self.routes) <= 9, 26)"),
        ("8 prefixes refused", MANY, "need(len(self.prefixes) < 8, 26)"),
        ("8 routes refused", ROUTES, "need(len(self.routes) < 8, 26)"),
        ("prefixes and routes counted together", MANY, "need(len(self.prefixes) + len(self.routes) <= 8, 26)"),
        ("prefixes counted in one byte", MANY, "self.prefixes = self.prefixes[:len(self.prefixes) % 256]; " + MANY),
        ("routes counted in one byte", ROUTES, "self.routes = self.routes[:len(self.routes) % 256]; " + ROUTES),
        ("a prefix of 129 bits taken", LONG, "need(all(length <= 129 for length, *_ in self.prefixes), 26); " + CUT.format("self.prefixes")),
        ("a route of 129 bits taken", LONG_ROUTE, "need(all(length <= 129 for length, *_ in self.routes), 26); " + CUT.format("self.routes")),
        ("prefix lengths not asked", LONG, CUT.format("self.prefixes")),
        ("route lengths not asked", LONG_ROUTE, CUT.format("self.routes")),
        ("prefix lengths above 191 alone refused", LONG, "need(all(length < 192 for length, *_ in self.prefixes), 26); " + CUT.format("self.prefixes")),
        ("the first prefix alone asked", LONG, "need(all(length <= 128 for length, *_ in self.prefixes[:1]), 26); " + CUT.format("self.prefixes")),
        ("the first route alone asked", LONG_ROUTE, "need(all(length <= 128 for length, *_ in self.routes[:1]), 26); " + CUT.format("self.routes")),
        ("the eighth prefix not asked", LONG, "need(all(length <= 128 for length, *_ in self.prefixes[:7]), 26); " + CUT.format("self.prefixes")),
        ("the eighth route not asked", LONG_ROUTE, "need(all(length <= 128 for length, *_ in self.routes[:7]), 26); " + CUT.format("self.routes")),
        ("a prefix of 128 bits refused", LONG, LONG.replace("<=", "<")),
        ("a route of 128 bits refused", LONG_ROUTE, LONG_ROUTE.replace("<=", "<")),
        ("a prefix of other than 64 bits refused", LONG, LONG.replace("<= 128", "== 64")),
        ("entries behind the count of prefixes judged", LONG, LONG.replace("in self.prefixes)", "in (list(self.prefixes) + [(129,)] * 8)[:8])")),
        ("entries behind the count of routes judged", LONG_ROUTE, LONG_ROUTE.replace("in self.routes)", "in (list(self.routes) + [(129,)] * 8)[:8])")),
        ("a preferred lifetime above the valid one refused", LONG, LONG + "; need(all(one[3] <= one[2] for one in self.prefixes), 26)"),
        ("a router lifetime above 9,000 refused", LONG, LONG + "; need(self.lifetime <= 9000, 26)")):
    wrong("rules", "the operator's advertisement: " + name, old, new)

# ---- What is written

BITS = "(number(prefix) >> 128 - length << 128 - length).to_bytes(16, \"big\")"
PREFIX = "u32(valid) + u32(preferred) + bytes(4) + first_bits(length, prefix)"
ROUTE = "first_bits(length, prefix)[:8 * units - 8]"
UNITS = "1 if length == 0 else 2 if length <= 64 else 3"
START = "bytes([0, operator.flags & 0xc0]) + u16(operator.lifetime) + bytes(8)"

for name, old, new in (
        ("bits past the length left", BITS, "prefix"),
        ("bits past the length left in prefixes", PREFIX, PREFIX.replace("first_bits(length, prefix)", "prefix")),
        ("bits past the length left in routes", ROUTE, ROUTE.replace("first_bits(length, prefix)", "prefix")),
        ("a bit too many cleared", BITS, BITS.replace("128 - length", "min(128, 129 - length)")),
        ("a bit too few cleared", BITS, BITS.replace("128 - length", "max(0, 127 - length)")),
        ("whole bytes alone cleared", BITS, BITS.replace("128 - length", "(128 - length) // 8 * 8")),
        ("whole bytes cleared", BITS, BITS.replace("128 - length", "(135 - length) // 8 * 8")),
        ("bits cleared from the other end", BITS, "(number(prefix) & (1 << length) - 1).to_bytes(16, \"big\")"),
        ("bits of each byte counted from the low one", BITS,
         "bytes(one & (1 << max(0, min(8, length - 8 * place))) - 1 for place, one in enumerate(prefix))"),
        ("low preference as 10", "(0x00, 0x08, 0x18)", "(0x00, 0x08, 0x10)"),
        ("high and low preference exchanged", "(0x00, 0x08, 0x18)", "(0x00, 0x18, 0x08)"),
        ("medium and high preference exchanged", "(0x00, 0x08, 0x18)", "(0x08, 0x00, 0x18)"),
        ("preference in the lowest bits", "(0x00, 0x08, 0x18)", "(0x00, 0x01, 0x03)"),
        ("preference in the highest bits", "(0x00, 0x08, 0x18)", "(0x00, 0x40, 0xc0)"),
        ("preference as its number", "(0x00, 0x08, 0x18)", "(0, 1, 2)"),
        ("no preference", "(0x00, 0x08, 0x18)", "(0, 0, 0)"),
        ("two units for a route of length 0", UNITS, "2 if length <= 64 else 3"),
        ("one unit for a route of length 1", UNITS, "1 if length <= 1 else 2 if length <= 64 else 3"),
        ("three units for a route of length 64", UNITS, "1 if length == 0 else 2 if length < 64 else 3"),
        ("two units for a route of length 65", UNITS, "1 if length == 0 else 2 if length <= 65 else 3"),
        ("three units for every route", UNITS, "3"),
        ("routes' lengths in bytes", "bytes([24, units, length, PREFERENCES", "bytes([24, 8 * units, length, PREFERENCES"),
        ("route of type 23", "bytes([24, units", "bytes([23, units"),
        ("route options with their whole prefix", ROUTE, "first_bits(length, prefix)"),
        ("prefix of a route from its ninth byte", ROUTE, "first_bits(length, prefix)[24 - 8 * units:]"),
        ("route lifetime 0", "PREFERENCES[preference]]) + u32(lifetime)", "PREFERENCES[preference]]) + u32(0)"),
        ("route lifetime in 16 bits", "PREFERENCES[preference]]) + u32(lifetime)", "PREFERENCES[preference]]) + u32(lifetime & 0xffff)"),
        ("preferred lifetime in the place of the valid one", "u32(valid) + u32(preferred)", "u32(preferred) + u32(preferred)"),
        ("valid lifetime in the place of the preferred one", "u32(valid) + u32(preferred)", "u32(valid) + u32(valid)"),
        ("valid and preferred lifetime exchanged", "u32(valid) + u32(preferred)", "u32(preferred) + u32(valid)"),
        ("preferred lifetime at most the valid one", "u32(valid) + u32(preferred)", "u32(valid) + u32(min(valid, preferred))"),
        ("lifetimes in 31 bits", "u32(valid) + u32(preferred)", "u32(min(valid, 2 ** 31 - 1)) + u32(preferred)"),
        ("no reserved bytes in prefixes", PREFIX, PREFIX.replace("bytes(4) + ", "") + " + bytes(4)"),
        ("prefix of type 4", "bytes([3, 4, length", "bytes([4, 4, length"),
        ("prefix of length 3", "bytes([3, 4, length", "bytes([3, 3, length"),
        ("prefix length 64 always", "bytes([3, 4, length", "bytes([3, 4, 64"),
        ("all flags of prefixes written", "flags & 0xc0]) + u32(valid)", "flags]) + u32(valid)"),
        ("flag L alone written", "flags & 0xc0]) + u32(valid)", "flags & 0x80]) + u32(valid)"),
        ("flag A alone written", "flags & 0xc0]) + u32(valid)", "flags & 0x40]) + u32(valid)"),
        ("flags L and A exchanged", "flags & 0xc0]) + u32(valid)", "(flags & 0x40) << 1 | (flags & 0x80) >> 1]) + u32(valid)"),
        ("all flags of the message written", START, START.replace(" & 0xc0", "")),
        ("flag M alone written", START, START.replace("0xc0", "0x80")),
        ("flag O alone written", START, START.replace("0xc0", "0x40")),
        ("flags M and O exchanged", START, START.replace("operator.flags & 0xc0", "(operator.flags & 0x40) << 1 | (operator.flags & 0x80) >> 1")),
        ("current hop limit 64", START, START.replace("bytes([0,", "bytes([64,")),
        ("current hop limit 255", START, START.replace("bytes([0,", "bytes([255,")),
        ("router lifetime 0", START, START.replace("operator.lifetime", "0")),
        ("router lifetime at most 9,000", START, START.replace("operator.lifetime", "min(operator.lifetime, 9000)")),
        ("a reachable time", START, START.replace("bytes(8)", "u32(30000) + bytes(4)")),
        ("a retransmission timer", START, START.replace("bytes(8)", "bytes(4) + u32(1000)")),
        ("no timers", START, START.replace(" + bytes(8)", "")),
        ("type 133", "start = bytes([134, 0, 0, 0])", "start = bytes([133, 0, 0, 0])"),
        ("code 1", "start = bytes([134, 0, 0, 0])", "start = bytes([134, 1, 0, 0])"),
        ("hop limit 64", "link_local(source), asker, 255, start", "link_local(source), asker, 64, start"),
        ("source and destination exchanged", "link_local(source), asker, 255, start", "asker, link_local(source), 255, start"),
        ("routes before prefixes", "b\"\".join(prefixes + routes)", "b\"\".join(routes + prefixes)"),
        ("prefixes in the other order", "b\"\".join(prefixes + routes)", "b\"\".join(prefixes[::-1] + routes)"),
        ("routes in the other order", "b\"\".join(prefixes + routes)", "b\"\".join(prefixes + routes[::-1])"),
        ("no prefixes", "b\"\".join(prefixes + routes)", "b\"\".join(routes)"),
        ("no routes", "b\"\".join(prefixes + routes)", "b\"\".join(prefixes)"),
        ("the first prefix again and again", "b\"\".join(prefixes + routes)", "b\"\".join(prefixes[:1] * len(prefixes) + routes)"),
        ("the first route again and again", "b\"\".join(prefixes + routes)", "b\"\".join(prefixes + routes[:1] * len(routes))"),
        ("a prefix that stands twice written once", "b\"\".join(prefixes + routes)", "b\"\".join(list(dict.fromkeys(prefixes)) + routes)"),
        ("a link-layer option too", "b\"\".join(prefixes + routes)", "b\"\".join(prefixes + routes) + b'\\1\\1' + bytes(6)"),
        ("an MTU option too", "b\"\".join(prefixes + routes)", "b\"\".join(prefixes + routes) + b'\\5\\1' + bytes(4) + u16(1280)")):
    wrong("rules", "advertisements written: " + name, old, new)
