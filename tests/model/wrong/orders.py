"""Numbers given in another order."""
from .edits import swapped, wrong

wrong("node", "order of receiving: 3 before 2", "        header, total = outer_header(datagram)\n",
      "        need(len(datagram) < 20 or checksum_right(datagram[:4 * (datagram[0] & 15)]), 3)\n        header, total = outer_header(datagram)\n")
swapped("order of receiving: 4 before 3", "need(checksum_right(datagram[:header]), 3)", "need(datagram[9] == 41, 4)")
swapped("order of receiving: 6 before 4", "need(datagram[9] == 41, 4)", "need((datagram[16:20], interface) in self.settings.locators, 6)")
wrong("node", "order of receiving: 7 before 6", "        need((datagram[16:20], interface) in self.settings.locators, 6)\n",
      "        need(not forbidden(datagram[12:16]), 7)\n        need((datagram[16:20], interface) in self.settings.locators, 6)\n")
wrong("node", "order of receiving: 8 before 7", "        need(not forbidden(outer_source), 7)\n",
      "        inner_length(datagram[header:total] if is_whole(datagram) else b'\\x60' + bytes(39))\n        need(not forbidden(outer_source), 7)\n")
wrong("node", "order of receiving: 9 before 8", "        length = inner_length(payload)\n",
      "        need(len(payload) < 40 or not inner_source_bad(payload[8:24]), 9)\n        length = inner_length(payload)\n")
wrong("node", "order of receiving: 10 before 9", "        need(not inner_source_bad(source), 9)\n",
      "        need(self.settings.isatap(source) and source[12:] == outer_source or self.listed(outer_source), 10)\n"
      "        need(not inner_source_bad(source), 9)\n")
for name, test in (("2", "outer_header(datagram)"), ("3", "need(len(datagram) < 20 or checksum_right(datagram[:4 * (datagram[0] & 15)]), 3)"),
                   ("6", "need(len(datagram) < 20 or (datagram[16:20], interface) in self.settings.locators, 6)"),
                   ("7", "need(len(datagram) < 20 or not forbidden(datagram[12:16]), 7)"), ("2 to 7", "self.outer(interface, datagram)")):
    wrong("node", f"order of receiving: {name} before 15", "        need(len(memory) >= 16384, 15)\n",
          f"        {test}\n        need(len(memory) >= 16384, 15)\n")
wrong("node", "order of receiving: 30 before 2", "        header, total = outer_header(datagram)\n",
      "        len(datagram) < 20 or is_whole(datagram) or Piece(datagram, 20, int.from_bytes(datagram[2:4], 'big')).check()\n"
      "        header, total = outer_header(datagram)\n")
for number, line in ((3, "need(checksum_right(datagram[:header]), 3)"), (4, "need(datagram[9] == 41, 4)"),
                     (6, "need((datagram[16:20], interface) in self.settings.locators, 6)"), (7, "need(not forbidden(outer_source), 7)")):
    wrong("node", f"order of receiving: 30 before {number}", f"        {line}\n",
          f"        is_whole(datagram) or Piece(datagram, header, total).check()\n        {line}\n")
CHECKED, KNOWN = "        piece.check()\n", "        datagram = next((one for one in self.live(now) if one.key == piece.key), None)\n"
wrong("joining", "order of receiving: 29 and 27 before 30", CHECKED + KNOWN,
      KNOWN + "        datagram is None or self.compare(datagram, piece, memory)\n" + CHECKED)
wrong("joining", "order of receiving: 28 before 30", CHECKED + KNOWN, KNOWN + "        datagram or self.lowest(now)\n" + CHECKED)
wrong("joining", "order of receiving: 28 before 29", KNOWN, "        self.lowest(now)\n" + KNOWN)
wrong("joining", "order of receiving: 27 before 29", "        if datagram.disagrees(piece):\n",
      "        if octets <= held:\n            raise Refused(27)\n        if datagram.disagrees(piece):\n")
wrong("node", "order of receiving: 8 to 10 before 27", "        joined = self.collection.take(",
      "        datagram[6:8] == b' \\0' and self.inner(datagram[header:total], datagram[12:16])\n        joined = self.collection.take(")
wrong("node", "order of sending: 11 before 8", "        need(inner_length(packet) == len(packet), 8)\n",
      "        self.locator(index)\n        need(inner_length(packet) == len(packet), 8)\n")
swapped("order of sending: 12 before 11", "source = self.locator(index)", "need(self.settings.isatap(next_hop), 12)")
wrong("node", "order of sending: 13 before 12", "        need(self.settings.isatap(next_hop), 12)\n",
      "        need(not forbidden(next_hop[12:]) and not self.settings.own(next_hop[12:]), 13)\n        need(self.settings.isatap(next_hop), 12)\n")
wrong("node", "order of sending: 14 before 13", "        need(not forbidden(end) and not self.settings.own(end), 13)\n",
      "        if len(packet) > max(1280, self.size(end) - 20):\n            return self.too_big(packet, max(1280, self.size(end) - 20), output)\n"
      "        need(not forbidden(end) and not self.settings.own(end), 13)\n")
wrong("node", "order of sending: 23 before 14", "        if len(packet) > largest:\n",
      "        need(20 + len(packet) <= 65535, 23)\n        if len(packet) > largest:\n")
wrong("node", "order of sending: 15 before 14", "        if len(packet) > largest:\n",
      "        need(min(1280, 20 + len(packet)) <= len(output), 15)\n        if len(packet) > largest:\n")
wrong("node", "order of sending: 8 last of all",
      "        need(inner_length(packet) == len(packet), 8)\n        source = self.locator(index)\n"
      "        need(self.settings.isatap(next_hop), 12)\n",
      "        source = self.locator(index)\n        need(self.settings.isatap(next_hop), 12)\n"
      "        need(inner_length(packet) == len(packet), 8)\n")
wrong("node", "order of reports: 17 before 16", "        need(checksum_right(message), 16)\n",
      "        need(self.settings.own(message[20:24]) and message[17] == 41, 17)\n        need(checksum_right(message), 16)\n")
wrong("node", "order of reports: 18 before 16", "        need(checksum_right(message), 16)\n",
      "        need(not 1 <= int.from_bytes(message[6:8], 'big') < 68, 18)\n        need(checksum_right(message), 16)\n")
wrong("node", "order of reports: 18 before 17", "        neighbour = quoted[16:20]\n",
      "        need(reported_candidate(message, quoted) >= 68, 18)\n        neighbour = quoted[16:20]\n")
wrong("node", "order of reports: 19 before 17", "        neighbour = quoted[16:20]\n",
      "        need(reported_candidate(message, quoted) < self.size(quoted[16:20]), 19)\n        neighbour = quoted[16:20]\n")
wrong("node", "order of asking: 22 before 11", "        source = self.locator(index)\n        router, due",
      "        need(any(due <= self.latest for _, due in self.routers), 22)\n        source = self.locator(index)\n        router, due")
wrong("node", "order of asking: 15 before 22", "        need(router is not None and due <= self.latest, 22)\n",
      "        need(len(output) >= 48, 15)\n        need(router is not None and due <= self.latest, 22)\n")
wrong("node", "order of asking: 15 before 11", "        source = self.locator(index)\n        router, due",
      "        need(len(output) >= 48, 15)\n        source = self.locator(index)\n        router, due")
wrong("node", "order of advertisements: 20 before 8", "        packet = packet[:inner_length(packet)]\n",
      "        need(len(packet) < 40 or packet[6] == 58 and packet[7] == 255, 20)\n        packet = packet[:inner_length(packet)]\n")
wrong("node", "order of advertisements: 21 before 20", "        need(packet[6] == 58, 20)\n",
      "        need(not self.settings.isatap(source) or source[:8] != LINK_LOCAL or self.listed(source[12:]), 21)\n        need(packet[6] == 58, 20)\n")
wrong("node", "order of advertisements: 21 before 8", "        packet = packet[:inner_length(packet)]\n",
      "        need(len(packet) < 40 or self.listed(packet[20:24]), 21)\n        packet = packet[:inner_length(packet)]\n")
wrong("node", "order of advertisements: 21 before the options are walked", "        smallest = smallest_lifetime(message)\n",
      "        need(self.settings.isatap(source) and self.listed(source[12:]), 21)\n        smallest = smallest_lifetime(message)\n")
swapped("order of advertising: 11 before 8", "packet = asked[:inner_length(asked)]", "source = self.locator(index)")
wrong("node", "order of advertising: 24 before 8", "        packet = asked[:inner_length(asked)]\n",
      "        need(len(asked) < 40 or asked[6] == 58 and asked[7] == 255, 24)\n        packet = asked[:inner_length(asked)]\n")
wrong("node", "order of advertising: 25 before 8", "        packet = asked[:inner_length(asked)]\n",
      "        need(len(asked) < 40 or asked[8:16] == LINK_LOCAL, 25)\n        packet = asked[:inner_length(asked)]\n")
for number, test in ((26, "operator.check()"), (15, "need(56 <= len(output), 15)")):
    wrong("node", f"order of advertising: {number} before 8", "        packet = asked[:inner_length(asked)]\n",
          f"        {test}\n        packet = asked[:inner_length(asked)]\n")
    wrong("node", f"order of advertising: {number} before 11", "        source = self.locator(index)\n        check_solicitation(packet)\n",
          f"        {test}\n        source = self.locator(index)\n        check_solicitation(packet)\n")
    wrong("node", f"order of advertising: {number} before 24", "        check_solicitation(packet)\n", f"        {test}\n        check_solicitation(packet)\n")
    wrong("node", f"order of advertising: {number} before 25", "        asker = packet[8:24]\n", f"        {test}\n        asker = packet[8:24]\n")
swapped("order of advertising: 24 before 11", "source = self.locator(index)", "check_solicitation(packet)")
wrong("node", "order of advertising: 25 before 11", "        source = self.locator(index)\n        check_solicitation(packet)\n",
      "        need(packet[8:16] == LINK_LOCAL, 25)\n        source = self.locator(index)\n        check_solicitation(packet)\n")
wrong("node", "order of advertising: 25 before 24", "        check_solicitation(packet)\n",
      "        need(packet[8:16] == LINK_LOCAL and self.settings.isatap(packet[8:24]), 25)\n        check_solicitation(packet)\n")
wrong("node", "order of advertising: 15 before 26", "        operator.check()\n",
      "        need(56 + 32 * len(operator.prefixes) <= len(output), 15)\n        operator.check()\n")
wrong("node", "order of advertising: room for the first eight before 26", "        operator.check()\n",
      "        need(56 + 32 * min(8, len(operator.prefixes)) + 16 * min(8, len(operator.routes)) <= len(output), 15)\n        operator.check()\n")
wrong("node", "order of advertising: 11 last of all",
      "        source = self.locator(index)\n        check_solicitation(packet)\n        asker = packet[8:24]\n"
      "        need(asker[:8] == LINK_LOCAL and self.settings.isatap(asker), 25)\n        operator.check()\n",
      "        check_solicitation(packet)\n        asker = packet[8:24]\n"
      "        need(asker[:8] == LINK_LOCAL and self.settings.isatap(asker), 25)\n        operator.check()\n        source = self.locator(index)\n")
wrong("node", "order of advertising: 8 last of all",
      "        packet = asked[:inner_length(asked)]\n        source = self.locator(index)\n",
      "        source = self.locator(index)\n        operator.check()\n        packet = asked[:inner_length(asked)]\n")
