"""Wrong joining of pieces."""
from .edits import wrong

# ---- What a piece is, and what is unfit

KEY = "self.key = datagram[12:16], datagram[16:20], datagram[9], datagram[4:6]"
SAME = "one.key == piece.key"
PASTS = "need(self.end <= 2048, 30)"
CUT = "self.payload = self.payload[:max(0, 2048 - self.start)]; self.start = min(2048, self.start); self.end = self.start + len(self.payload)"
MULTIPLE = "need(not self.more or len(self.payload) % 8 == 0, 30)"

for name, old, new in (
        ("more-fragments read from don't-fragment's bit", "flags & 0x2000 != 0", "flags & 0x4000 != 0"),
        ("more-fragments read from the reserved bit", "flags & 0x2000 != 0", "flags & 0x8000 != 0"),
        ("more-fragments the other way round", "flags & 0x2000 != 0", "flags & 0x2000 == 0"),
        ("more-fragments never set", "flags & 0x2000 != 0", "False"),
        ("more-fragments set by any flag", "flags & 0x2000 != 0", "flags & 0xe000 != 0"),
        ("offset counted in bytes", "8 * (flags & 0x1fff)", "flags & 0x1fff"),
        ("offset counted in words of 4 bytes", "8 * (flags & 0x1fff)", "4 * (flags & 0x1fff)"),
        ("offset of 14 bits", "8 * (flags & 0x1fff)", "8 * (flags & 0x3fff)"),
        ("offset of 12 bits", "8 * (flags & 0x1fff)", "8 * (flags & 0xfff)"),
        ("offset of 8 bits", "8 * (flags & 0x1fff)", "8 * (flags & 0xff)"),
        ("offset of 9 bits", "8 * (flags & 0x1fff)", "8 * (flags & 0x1ff)"),
        ("offset reckoned in 16 bits", "8 * (flags & 0x1fff)", "8 * (flags & 0x1fff) % 65536 % 65528"),
        ("padding taken for payload", "self.payload = datagram[header:total]", "self.payload = datagram[header:]"),
        ("options taken for payload", "self.payload = datagram[header:total]", "self.payload = datagram[20:total]"),
        ("payload without its last byte", "self.payload = datagram[header:total]", "self.payload = datagram[header:total - 1]"),
        ("end asked in 16 bits", PASTS, "need(self.end % 65536 <= 2048, 30); " + CUT),
        ("end rounded up to 8", "self.end = self.start + len(self.payload)", "self.payload += bytes(-len(self.payload) % 8 * (len(datagram) < 2000))\n"
         "        self.end = self.start + len(self.payload)"),
        ("an empty piece taken", "        need(len(self.payload) > 0, 30)\n", ""),
        ("an empty piece taken where none follows", "need(len(self.payload) > 0, 30)", "need(len(self.payload) > 0 or not self.more, 30)"),
        ("8 bytes asked of every piece", "need(len(self.payload) > 0, 30)", "need(len(self.payload) >= 8, 30)"),
        ("a piece that ends past 2,048 taken, and cut off", PASTS, CUT),
        ("a piece that starts before 2,048 fits", PASTS, "need(self.start < 2048, 30); " + CUT),
        ("a piece that is no longer than 2,048 fits", PASTS,
         "need(len(self.payload) <= 2048, 30); self.start = min(self.start, 2048 - len(self.payload)); self.end = self.start + len(self.payload)"),
        ("a piece that ends at 2,048 unfit", PASTS, "need(self.end < 2048, 30)"),
        ("a piece that ends at 2,047 unfit", PASTS, "need(self.end < 2047 or self.end == 2048, 30)"),
        ("a last piece that ends at 2,048 unfit", PASTS, "need(self.end < 2048 + self.more, 30)"),
        ("a last piece that ends at 2,049 taken", PASTS, "need(self.end <= 2048 + (not self.more), 30); self.payload = self.payload[:2048 - self.start]"),
        ("2,048 counted with the outer header", PASTS, "need(self.end + 20 <= 2048, 30)"),
        ("2,048 counted without the inner header", PASTS, "need(self.end <= 2088, 30); " + CUT),
        ("a first piece of 1,280 bytes at most", PASTS, "need(self.end <= 2048 and len(self.payload) <= 1280, 30)"),
        ("a multiple of 8 asked of the last piece too", MULTIPLE, "need(len(self.payload) % 8 == 0, 30)"),
        ("a multiple of 8 asked of the last piece alone", MULTIPLE, "need(self.more or len(self.payload) % 8 == 0, 30)"),
        ("a multiple of 8 not asked", MULTIPLE, "pass"),
        ("a multiple of 4 asked", MULTIPLE, "need(not self.more or len(self.payload) % 4 == 0, 30)"),
        ("a multiple of 8 asked of the first piece alone", MULTIPLE, "need(not self.more or self.start > 0 or len(self.payload) % 8 == 0, 30)"),
        ("an unfit piece is 2", "        piece.check()\n", "        try:\n            piece.check()\n        except Refused:\n            raise Refused(2)\n"),
        ("an unfit piece is 8", "        piece.check()\n", "        try:\n            piece.check()\n        except Refused:\n            raise Refused(8)\n"),
        ("an unfit piece drops its datagram", "        piece.check()\n",
         "        try:\n            piece.check()\n        except Refused:\n            self.datagrams = [one for one in self.datagrams if one.key != piece.key]\n            raise\n"),
        ("an unfit piece takes a place", "        piece.check()\n",
         "        try:\n            piece.check()\n        except Refused:\n            known = [one for one in self.live(now) if one.key == piece.key]\n"
         "            known or self.datagrams.append(Collected(piece.key, self.lowest(now), now))\n            raise\n"),
        ("unfit is never given", "        piece.check()\n", "        piece.payload = piece.payload[:max(0, 2048 - piece.start)] or b'?'; "
         "piece.start = min(2040, piece.start); piece.end = piece.start + len(piece.payload)\n")):
    wrong("joining", "pieces: " + name, old, new)

# ---- Keys

for name, new in (
        ("without the source", "one.key[1:] == piece.key[1:]"), ("without the destination", "(one.key[0], *one.key[2:]) == (piece.key[0], *piece.key[2:])"),
        ("without the identification", "one.key[:3] == piece.key[:3]"), ("of the identification alone", "one.key[3] == piece.key[3]"),
        ("of the source alone", "one.key[0] == piece.key[0]"), ("with the first byte of the identification", "(*one.key[:3], one.key[3][0]) == (*piece.key[:3], piece.key[3][0])"),
        ("with the second byte of the identification", "(*one.key[:3], one.key[3][1]) == (*piece.key[:3], piece.key[3][1])"),
        ("of source or identification", "one.key[0] == piece.key[0] or one.key[3] == piece.key[3]")):
    wrong("joining", f"keys: {name}", SAME, new)
for byte in range(4):
    for name, part in (("source", 0), ("destination", 1)):
        wrong("joining", f"keys: {name} without byte {byte}", SAME,
              f"all(here[:{byte}] + here[{byte + 1}:] == there[:{byte}] + there[{byte + 1}:] if place == {part} else here == there"
              " for place, (here, there) in enumerate(zip(one.key, piece.key)))")
for name, more in (("TTL", "datagram[8]"), ("type of service", "datagram[1]"), ("don't-fragment", "datagram[6] & 0x40"), ("header words", "datagram[0]"),
                   ("options", "datagram[20:header]"), ("checksum", "datagram[10:12]"), ("more-fragments", "datagram[6] & 0x20"), ("length", "len(datagram)")):
    wrong("joining", f"keys: with {name}", KEY, f"{KEY}, {more}")
TAKEN = "joined = self.collection.take(Piece(datagram, header, total), self.latest, memory)"
wrong("node", "keys: with the interface", TAKEN, "piece = Piece(datagram, header, total)\n        piece.key += (interface,)\n"
      "        joined = self.collection.take(piece, self.latest, memory)")

# ---- Times

LIVE = "return now < self.first + 30"
for name, new in (("live at 30 s", "return now <= self.first + 30"), ("not live at 29 s", "return now < self.first + 29"), ("live for 60 s", "return now < self.first + 60"),
                  ("live for 15 s", "return now < self.first + 15"), ("live for ever", "return True"), ("live in its own second alone", "return now == self.first"),
                  ("live until a sum that wraps at 32 bits", "return now < (self.first + 30) % 2 ** 32"),
                  ("live until a sum that stops at the last second", "return now < min(self.first + 30, 2 ** 32 - 1)"),
                  ("live until a sum of 31 bits", "return now < (self.first + 30) % 2 ** 31"),
                  ("live until a sum of 16 bits", "return now % 65536 < (self.first + 30) % 65536"),
                  ("ages of 8 bits", "return (now - self.first) % 256 < 30"), ("ages of 16 bits", "return (now - self.first) % 65536 < 30")):
    wrong("joining", "joining: " + name, LIVE, new)
COMPARED, APPENDED = "            self.compare(datagram, piece, memory)\n", "        datagram.taken.append(piece)\n"
IGNORED = "            try:\n                self.compare(datagram, piece, memory)\n            except Refused as refused:\n                {}\n                raise\n"
for name, old, new in (
        ("first time renewed by a repeat", COMPARED, IGNORED.format("datagram.first = now")),
        ("first time renewed by a repeat of the first piece", COMPARED,
         IGNORED.format("datagram.first = now if piece.start == datagram.taken[0].start else datagram.first")),
        ("first time renewed by each piece", APPENDED, APPENDED + "        datagram.first = now\n"),
        ("first time renewed by the last piece", APPENDED, APPENDED + "        datagram.first = datagram.first if piece.more else now\n"),
        ("first time is that of offset 0", APPENDED, APPENDED + "        datagram.first = datagram.first if piece.start else now\n"),
        ("first time of a place kept", "datagram = Collected(piece.key, self.lowest(now), now)",
         "datagram = Collected(piece.key, self.lowest(now), max([now - 1] + [one.first for one in self.datagrams if not one.live(now)]))"),
        ("first time 0", "datagram = Collected(piece.key, self.lowest(now), now)", "datagram = Collected(piece.key, self.lowest(now), 0)"),
        ("a piece of what is live no more is taken into it", "for one in self.live(now) if one.key", "for one in self.datagrams if one.key"),
        ("a piece of what is live no more is 27 and not taken", "        if datagram is None:\n",
         "        if datagram is None and any(one.key == piece.key for one in self.datagrams):\n            raise Refused(27)\n        if datagram is None:\n"),
        ("a piece of what is live no more is 29", "        if datagram is None:\n", "        if datagram is None and any(one.key == piece.key for one in self.datagrams):\n"
         "            self.datagrams = [one for one in self.datagrams if one.key != piece.key]\n            raise Refused(29)\n        if datagram is None:\n")):
    wrong("joining", "joining: " + name, old, new)
for name, new in (
        ("time of the argument", TAKEN.replace("self.latest", "time")),
        ("first time of the argument", "piece = Piece(datagram, header, total)\n        try:\n            joined = self.collection.take(piece, self.latest, memory)\n"
         "        finally:\n            for one in self.collection.datagrams:\n                one.first = time if one.taken == [piece] else one.first"),
        ("live by the argument", "piece = Piece(datagram, header, total)\n        try:\n            joined = self.collection.take(piece, time, memory)\n"
         "        finally:\n            for one in self.collection.datagrams:\n                one.first = self.latest if one.taken == [piece] else one.first"),
        ("a late piece drops all that is collected", "late = any(not one.live(self.latest) for one in self.collection.datagrams)\n"
         "        self.collection.datagrams = [] if late else self.collection.datagrams\n        " + TAKEN)):
    wrong("node", "joining: " + name, TAKEN, new)

# ---- Ends

SET_NEW = "return any(piece.end >= end for end in self.ends())"
CLEAR_CLEAR, SET_TAKEN = "any(piece.end != end for end in self.ends())", "any(one.end >= piece.end for one in self.taken if one.more)"
ENDS = "        if datagram.disagrees(piece):\n            self.free(datagram.place)\n            raise Refused(29)\n"
EQUAL = ("        equal = datagram.within(memory)[piece.start:piece.end] == piece.payload\n        if octets <= held and equal:\n"
         "            raise Refused(27)\n")
OVERLAP = "        if octets & held:\n            self.free(datagram.place)\n            raise Refused(29)\n"
for name, old, new in (
        ("not compared", ENDS, ""),
        ("compared behind what is held and equal", ENDS + EQUAL, EQUAL + ENDS),
        ("compared where no byte is held alone", "if datagram.disagrees(piece):", "if datagram.disagrees(piece) and not octets & held:"),
        ("compared where a byte is held alone", "if datagram.disagrees(piece):", "if datagram.disagrees(piece) and octets & held:"),
        ("compared where not all bytes are held alone", "if datagram.disagrees(piece):", "if datagram.disagrees(piece) and not octets <= held:"),
        ("two ends apart taken", CLEAR_CLEAR, "False"),
        ("an earlier end taken", CLEAR_CLEAR, "any(piece.end > end for end in self.ends())"),
        ("a later end taken", CLEAR_CLEAR, "any(piece.end < end for end in self.ends())"),
        ("ends compared by units of 8", CLEAR_CLEAR, "any((piece.end + 7) // 8 != (end + 7) // 8 for end in self.ends())"),
        ("a piece past the end taken", SET_NEW, "return False"),
        ("a piece up to the end taken", SET_NEW, SET_NEW.replace(">=", ">")),
        ("a piece that starts at the end or past it alone disagrees", SET_NEW, "return any(piece.start >= end for end in self.ends())"),
        ("a piece just before the end disagrees", SET_NEW, "return any(piece.end + 8 >= end for end in self.ends())"),
        ("an end before pieces taken", SET_TAKEN, "False"),
        ("an end up to a piece taken", SET_TAKEN, SET_TAKEN.replace(">=", ">")),
        ("an end before the start of a piece alone disagrees", SET_TAKEN, "any(one.start >= piece.end for one in self.taken if one.more)"),
        ("an end compared with the last piece alone", SET_TAKEN, SET_TAKEN.replace("self.taken", "self.taken[-1:]")),
        ("an end compared with the first piece alone", SET_TAKEN, SET_TAKEN.replace("self.taken", "self.taken[:1]")),
        ("a piece compared with the last one's end alone", "return {piece.end for piece in self.taken if not piece.more}",
         "return {piece.end for piece in self.taken[-1:] if not piece.more}"),
        ("every piece an end", "return {piece.end for piece in self.taken if not piece.more}", "return {max(piece.end for piece in self.taken)}"),
        ("disagreeing is 27", ENDS, ENDS.replace("29", "27")),
        ("disagreeing is 30", ENDS, ENDS.replace("29", "30")),
        ("disagreeing keeps the datagram", ENDS, ENDS.replace("            self.free(datagram.place)\n", "")),
        ("disagreeing is ignored", ENDS, ENDS.replace("            self.free(datagram.place)\n", "").replace("29", "27")),
        ("the new end counts", ENDS, "        if datagram.disagrees(piece):\n            datagram.taken = [one for one in datagram.taken if one.more]\n"),
        ("disagreeing frees all places", ENDS, ENDS.replace("self.free(datagram.place)", "self.datagrams = []"))):
    wrong("joining", "ends: " + name, old, new)

# ---- What is held already

for name, old, new in (
        ("an unequal repeat ignored", "if octets <= held and equal:", "if octets <= held:"),
        ("an equal repeat drops", "if octets <= held and equal:", "if False:"),
        ("an equal repeat refused with 29 and nothing dropped", "            raise Refused(27)\n", "            raise Refused(29)\n"),
        ("an equal repeat drops, and is 27", "            raise Refused(27)\n", "            self.free(datagram.place)\n            raise Refused(27)\n"),
        ("an equal repeat frees the lowest place", "            raise Refused(27)\n", "            self.free(0)\n            raise Refused(27)\n"),
        ("a repeat compared by its first byte", "[piece.start:piece.end] == piece.payload", "[piece.start:piece.start + 1] == piece.payload[:1]"),
        ("a repeat compared by its first 8 bytes", "[piece.start:piece.end] == piece.payload", "[piece.start:min(piece.end, piece.start + 8)] == piece.payload[:8]"),
        ("a repeat compared without its last byte", "[piece.start:piece.end] == piece.payload", "[piece.start:piece.end - 1] == piece.payload[:-1]"),
        ("a repeat compared without its last unit", "[piece.start:piece.end] == piece.payload",
         "[piece.start:piece.start + len(piece.payload) // 8 * 8] == piece.payload[:len(piece.payload) // 8 * 8]"),
        ("a repeat compared with the front of the place", "[piece.start:piece.end] == piece.payload", "[:len(piece.payload)] == piece.payload"),
        ("a repeat compared by its length", "[piece.start:piece.end] == piece.payload", "[piece.start:piece.end].nbytes == len(piece.payload)"),
        ("a repeat compared in the first place", "datagram.within(memory)[piece.start:piece.end] ==", "memory[piece.start:piece.end] =="),
        ("the same piece alone a repeat", "if octets <= held and equal:", "if any(octets == one.octets() for one in datagram.taken) and equal:"),
        ("the last piece taken alone a repeat", "if octets <= held and equal:", "if octets == datagram.taken[-1].octets() and equal:"),
        ("the first piece taken alone a repeat", "if octets <= held and equal:", "if octets == datagram.taken[0].octets() and equal:"),
        ("a part of one piece alone a repeat", "if octets <= held and equal:", "if any(octets <= one.octets() for one in datagram.taken) and equal:"),
        ("what starts as a piece taken a repeat", "if octets <= held and equal:", "if any(piece.start == one.start for one in datagram.taken) and equal:"),
        ("what starts in what is held a repeat", "if octets <= held and equal:", "if piece.start in held:"),
        ("what ends in what is held a repeat", "if octets <= held and equal:", "if piece.end - 1 in held:"),
        ("what overlaps ignored", "if octets <= held and equal:", "if octets & held:"),
        ("what overlaps with equal bytes ignored", "if octets <= held and equal:",
         "if octets & held and all(datagram.within(memory)[octet] == piece.payload[octet - piece.start] for octet in octets & held):"),
        ("what overlaps with equal bytes taken", "        if octets & held:\n            self.free",
         "        if any(datagram.within(memory)[octet] != piece.payload[octet - piece.start] for octet in octets & held):\n            self.free"),
        ("what stands in the memory taken for held", "if octets <= held and equal:", "if equal:"),
        ("what overlaps taken", OVERLAP, ""),
        ("what overlaps taken, and the first bytes stay", OVERLAP,
         "        if octets & held:\n            piece.payload = bytes(datagram.within(memory)[octet] if octet in held else piece.payload[octet - piece.start]"
         " for octet in sorted(octets))\n"),
        ("what is held asked by its first byte", "if octets & held:", "if piece.start in held:"),
        ("what is held asked by its last byte", "if octets & held:", "if piece.end - 1 in held:"),
        ("what is held asked by its first and last byte", "if octets & held:", "if piece.start in held or piece.end - 1 in held:"),
        ("what is held asked against the last piece alone", "held, octets = datagram.held(), piece.octets()",
         "held, octets = datagram.taken[-1].octets(), piece.octets()"),
        ("what overlaps is 27", OVERLAP, OVERLAP.replace("29", "27")),
        ("what overlaps keeps the datagram", OVERLAP, OVERLAP.replace("            self.free(datagram.place)\n", "")),
        ("what overlaps frees all places", OVERLAP, OVERLAP.replace("self.free(datagram.place)", "self.datagrams = []")),
        ("what overlaps frees the lowest place", OVERLAP, OVERLAP.replace("self.free(datagram.place)", "self.free(0)")),
        ("dropped, the place kept", OVERLAP, OVERLAP.replace("self.free(datagram.place)", "datagram.taken = []")),
        ("dropped, its pieces' bytes held still", OVERLAP, OVERLAP.replace("self.free(datagram.place)", "datagram.key = ()")),
        ("dropped, the new piece kept", OVERLAP, OVERLAP.replace("self.free(datagram.place)",
         "datagram.taken = [piece]; datagram.within(memory)[piece.start:piece.end] = piece.payload")),
        ("dropped, the new piece kept and not written", OVERLAP, OVERLAP.replace("self.free(datagram.place)", "datagram.taken = [piece]")),
        ("dropped, the last piece alone forgotten", OVERLAP, OVERLAP.replace("self.free(datagram.place)", "datagram.taken.pop()")),
        ("dropped, its place free at 30 s alone", OVERLAP, OVERLAP.replace("self.free(datagram.place)", "datagram.key = None")),
        ("memory written before 29", OVERLAP, OVERLAP.replace("            self.free",
         "            datagram.within(memory)[piece.start:piece.end] = piece.payload\n            self.free")),
        ("memory written before 29 of two ends", ENDS, ENDS.replace("            self.free",
         "            datagram.within(memory)[piece.start:piece.end] = piece.payload\n            self.free")),
        ("memory written by an unequal repeat alone", "        if octets & held:\n",
         "        if octets <= held:\n            datagram.within(memory)[piece.start:piece.end] = piece.payload\n        if octets & held:\n"),
        ("dropped, and its memory cleared", OVERLAP, OVERLAP.replace("            self.free", "            datagram.within(memory)[:] = bytes(2048)\n            self.free"))):
    wrong("joining", "held: " + name, old, new)

# ---- Places

LOWEST = "return min(places)"
PLACES = "places = [place for place in range(8) if place not in taken]"
USED = "taken = [one.place for one in self.live(now)]"
for name, old, new in (
        ("the highest free one", LOWEST, "return max(places)"),
        ("the second free one", LOWEST, "return places[min(1, len(places) - 1)]"),
        ("the one behind the last live one", LOWEST, "return (max(taken, default=-1) + 1) % 8 if (max(taken, default=-1) + 1) % 8 in places else min(places)"),
        ("as many as are live", LOWEST, "return min(len(taken), 7) if min(len(taken), 7) in places else min(places)"),
        ("never used ones first", LOWEST, "return min(places, key=lambda place: (place in [one.place for one in self.datagrams], place))"),
        ("one that was used first", LOWEST, "return min(places, key=lambda place: (place not in [one.place for one in self.datagrams], place))"),
        ("the one that has been free longest", LOWEST, "self.order = getattr(self, 'order', 7) + 1; return places[self.order % len(places)]"),
        ("seven", PLACES, PLACES.replace("8", "7")),
        ("four", PLACES, PLACES.replace("8", "4")),
        ("one", PLACES, PLACES.replace("8", "1")),
        ("the first never used", PLACES, PLACES.replace("range(8)", "range(1, 8)")),
        ("never free again at 30 s", USED, "taken = [one.place for one in self.datagrams]"),
        ("free again at 30 s where none else is", USED,
         "taken = [one.place for one in self.datagrams]; taken = taken if len(set(taken)) < 8 else [one.place for one in self.live(now)]"),
        ("a new one in the place of the first", "        need(places, 28)\n", "        places = places or [0]\n"),
        ("a new one in the place of the oldest", "        need(places, 28)\n", "        places = places or [min(self.datagrams, key=lambda one: one.first).place]\n"),
        ("a new one in the last place", "        need(places, 28)\n", "        places = places or [7]\n"),
        ("none free is 27", "need(places, 28)", "need(places, 27)"),
        ("none free is 15", "need(places, 28)", "need(places, 15)"),
        ("none free drops all", "        need(places, 28)\n", "        self.datagrams = self.datagrams if places else []\n        need(places, 28)\n"),
        ("none free drops the first", "        need(places, 28)\n", "        places or self.free(0)\n        need(places, 28)\n"),
        ("none free writes the memory", "            datagram = Collected(piece.key, self.lowest(now), now)\n",
         "            if len(self.live(now)) == 8:\n                memory[piece.start:piece.end] = piece.payload\n"
         "            datagram = Collected(piece.key, self.lowest(now), now)\n"),
        ("of a datagram that is live no more not cleared of its pieces", "            self.free(datagram.place)\n            self.datagrams.append",
         "            datagram.taken = [piece for one in self.datagrams if one.place == datagram.place for piece in one.taken]\n"
         "            self.free(datagram.place)\n            self.datagrams.append"),
        ("not free behind what is joined", "        self.free(datagram.place)\n        return datagram\n", "        return datagram\n"),
        ("all free behind what is joined", "        self.free(datagram.place)\n        return datagram\n", "        self.datagrams = []\n        return datagram\n"),
        ("the lowest free behind what is joined", "        self.free(datagram.place)\n        return datagram\n", "        self.free(0)\n        return datagram\n"),
        ("free behind what is joined, but held still for its key", "        self.free(datagram.place)\n        return datagram\n",
         "        datagram.taken.pop()\n        return datagram\n"),
        ("two for one key", "            self.compare(datagram, piece, memory)\n", "            self.compare(datagram, piece, memory)\n            if len(datagram.taken) > 3:\n"
         "                datagram = Collected(piece.key, self.lowest(now), now)\n                self.datagrams.append(datagram)\n")):
    wrong("joining", "places: " + name, old, new)

# ---- The memory

WRITTEN = "        datagram.within(memory)[piece.start:piece.end] = piece.payload\n"
ZEROS = "        within = datagram.within(memory)\n        within[:] = {}\n"
for name, old, new in (
        ("never written", WRITTEN, ""),
        ("written without the offset", WRITTEN, "        datagram.within(memory)[:len(piece.payload)] = piece.payload\n"),
        ("written at the offset in units", WRITTEN, "        datagram.within(memory)[piece.start // 8:piece.start // 8 + len(piece.payload)] = piece.payload\n"),
        ("written in the first place alone", WRITTEN, "        memory[piece.start:piece.end] = piece.payload\n"),
        ("written behind all that was taken", WRITTEN, "        start = sum(len(one.payload) for one in datagram.taken[:-1])\n"
         "        datagram.within(memory)[start:start + len(piece.payload)] = piece.payload\n"),
        ("written a unit too far", WRITTEN, "        start = min(piece.start + 8, 2048 - len(piece.payload))\n"
         "        datagram.within(memory)[start:start + len(piece.payload)] = piece.payload\n"),
        ("written without the last byte", WRITTEN, WRITTEN.replace("piece.end]", "piece.end - 1]").replace("= piece.payload", "= piece.payload[:-1]")),
        ("written up to a multiple of 8", WRITTEN, "        padded = piece.payload + bytes(-len(piece.payload) % 8)\n"
         "        datagram.within(memory)[piece.start:piece.start + len(padded)] = padded\n"),
        ("written by what completes too late", WRITTEN + "        need(datagram.complete(), 27)\n", "        need(datagram.complete(), 27)\n" + WRITTEN),
        ("written by what waits alone", WRITTEN, "        if not datagram.complete():\n    " + WRITTEN),
        ("cleared when a datagram is begun", "            self.datagrams.append(datagram)\n",
         "            self.datagrams.append(datagram)\n            datagram.within(memory)[:] = bytes(2048)\n"),
        ("made A5 when a datagram is begun", "            self.datagrams.append(datagram)\n",
         "            self.datagrams.append(datagram)\n            datagram.within(memory)[:] = b'\\xa5' * 2048\n"),
        ("cleared behind the end", "        need(datagram.complete(), 27)\n", "        need(datagram.complete(), 27)\n        end = datagram.end()\n"
         "        datagram.within(memory)[end:] = bytes(2048 - end)\n"),
        ("written where the last piece ends", WRITTEN, WRITTEN + "        if not piece.more and piece.end < 2048:\n            datagram.within(memory)[piece.end:piece.end + 1] = b'\\0'\n"),
        ("places of 2,047 bytes", "return memory[2048 * self.place:2048 * self.place + 2048]", "return memory[2047 * self.place:2047 * self.place + 2048]"),
        ("places of 1,024 bytes", "return memory[2048 * self.place:2048 * self.place + 2048]", "return memory[1024 * self.place:1024 * self.place + 2048]"),
        ("places from the end on", "return memory[2048 * self.place:2048 * self.place + 2048]", "return memory[2048 * (7 - self.place):2048 * (8 - self.place)]"),
        ("places at the end of what is lent", "return memory[2048 * self.place:2048 * self.place + 2048]",
         "return memory[len(memory) - 16384:][2048 * self.place:2048 * self.place + 2048]")):
    wrong("joining", "memory: " + name, old, new)
MEMORY = "need(len(memory) >= 16384, 15)"
for name, new in (
        ("of 16,383 bytes taken", "need(len(memory) >= 16383, 15)"), ("of 16,384 bytes refused", "need(len(memory) > 16384, 15)"),
        ("of 8,192 bytes taken", "need(len(memory) >= 8192, 15)"), ("not asked", "pass"), ("of 65,535 bytes asked", "need(len(memory) >= 65535, 15)"),
        ("of no byte alone refused", "need(len(memory) > 0, 15)"), ("asked of pieces alone", "need(len(memory) >= 16384 or is_whole(datagram + bytes(8)), 15)"),
        ("asked of whole datagrams alone", "need(len(memory) >= 16384 or not is_whole(datagram + bytes(8)), 15)"),
        ("too short is 28", "need(len(memory) >= 16384, 28)"), ("too short is 2", "need(len(memory) >= 16384, 2)"),
        ("asked of what is free alone", "need(len(memory) >= 2048 + 2048 * max([one.place for one in self.collection.datagrams], default=0), 15)")):
    wrong("node", "memory: " + name, MEMORY, new)
wrong("node", "memory: too short forgets what is collected", MEMORY, "self.collection.datagrams = self.collection.datagrams if len(memory) >= 16384 else []; " + MEMORY)
wrong("node", "memory: a whole datagram written into it", "            return f\"deliver", "            memory[:length] = datagram[header:header + length]\n            return f\"deliver")

# ---- Complete

COMPLETE = "return any(set(range(end)) <= self.held() for end in self.ends())"
for name, new in (
        ("with the end alone", "return bool(self.ends())"), ("without an end", "return set(range(max(one.end for one in self.taken))) <= self.held()"),
        ("never", "return False"), ("with a first and a last piece", "return bool(self.ends()) and 0 in self.held()"),
        ("with the end and the first 40 bytes", "return bool(self.ends()) and set(range(40)) <= self.held()"),
        ("with the bytes of the inner header", "return set(range(40)) <= self.held()"),
        ("with all but the first unit", "return any(set(range(8, end)) <= self.held() for end in self.ends())"),
        ("with all but one unit", "return any(len(set(range(end)) - self.held()) <= 8 for end in self.ends())"),
        ("when the last piece comes last", "return any(set(range(end)) <= self.held() for end in self.ends()) and not self.taken[-1].more"),
        ("when the first piece comes first", "return any(set(range(end)) <= self.held() for end in self.ends()) and self.taken[0].start == 0"),
        ("in order alone", "return any(set(range(end)) <= self.held() for end in self.ends()) and"
         " all(one.start < other.start for one, other in zip(self.taken, self.taken[1:]))"),
        ("with two pieces", "return len(self.taken) == 2 and any(set(range(end)) <= self.held() for end in self.ends())"),
        ("with at most 16 pieces", "return len(self.taken) <= 16 and any(set(range(end)) <= self.held() for end in self.ends())"),
        ("with at most 128 pieces", "return len(self.taken) <= 128 and any(set(range(end)) <= self.held() for end in self.ends())"),
        ("by 64 units alone", "return any(set(range(min(end, 512))) <= self.held() for end in self.ends())"),
        ("by 254 units alone", "return any(set(range(min(end, 2032))) <= self.held() for end in self.ends())")):
    wrong("joining", "complete: " + name, COMPLETE, new)

# ---- What is joined

JUDGED = "length = self.inner(bytes(joined.within(memory)[:joined.end()]), joined.key[0])"
GIVEN = "return f\"joined {2048 * joined.place} {length}\""
KEPT = "try:\n            " + JUDGED + "\n        except Refused as refused:\n            {}\n            raise"
for name, old, new in (
        ("the whole place judged", JUDGED, JUDGED.replace(":joined.end()", ":2048")),
        ("a byte less judged", JUDGED, JUDGED.replace("joined.end()", "joined.end() - 1")),
        ("up to a multiple of 8 judged", JUDGED, JUDGED.replace("joined.end()", "-(-joined.end() // 8) * 8")),
        ("the last piece judged", JUDGED, "length = self.inner(datagram[header:total], joined.key[0])"),
        ("the first place judged", JUDGED, "length = self.inner(bytes(memory[:joined.end()]), joined.key[0])"),
        ("the pieces judged as they came", JUDGED, "length = self.inner(b''.join(one.payload for one in joined.taken), joined.key[0])"),
        ("judged by the destination", JUDGED, JUDGED.replace("joined.key[0]", "joined.key[1]")),
        ("8 to 10 not judged", JUDGED, "length = 40 + int.from_bytes(joined.within(memory)[4:6], 'big')"),
        ("9 and 10 not judged", JUDGED, "length = inner_length(bytes(joined.within(memory)[:joined.end()]))"),
        ("10 not judged", JUDGED, "payload = bytes(joined.within(memory)[:joined.end()])\n        length = inner_length(payload)\n"
         "        need(not inner_source_bad(payload[8:24]), 9)"),
        ("9 not judged", JUDGED, "payload = bytes(joined.within(memory)[:joined.end()])\n        length = inner_length(payload)\n"
         "        self.inner(payload if not inner_source_bad(payload[8:24]) else payload[:8] + bytes.fromhex('fe8000000000000000005efe') + joined.key[0]"
         " + payload[24:], joined.key[0])"),
        ("routers of the settings", JUDGED, "now, self.routers = self.routers, [(one, 0) for one in self.settings.routers]\n        try:\n            " + JUDGED
         + "\n        finally:\n            self.routers = now"),
        ("routers of the first piece's time", TAKEN, "piece, now = Piece(datagram, header, total), self.routers\n        piece.routers = now\n"
         "        joined = self.collection.take(piece, self.latest, memory)\n        self.listed = lambda one: one in [router for router, _ in joined.taken[0].routers]"),
        ("the whole payload delivered", GIVEN, "return f\"joined {2048 * joined.place} {joined.end()}\""),
        ("the payload length delivered", GIVEN, "return f\"joined {2048 * joined.place} {length - 40}\""),
        ("the last piece's length delivered", GIVEN, "return f\"joined {2048 * joined.place} {total - header}\""),
        ("the place's number named", GIVEN, "return f\"joined {joined.place} {length}\""),
        ("the first place named", GIVEN, "return f\"joined 0 {length}\""),
        ("the inner payload's place named", GIVEN, "return f\"joined {2048 * joined.place + 40} {length}\""),
        ("the last piece's place named", GIVEN, "return f\"joined {2048 * joined.place + joined.taken[-1].start} {length}\""),
        ("delivered as a whole datagram", GIVEN, "return f\"deliver {header} {length}\""),
        ("delivered as a whole datagram in the memory", GIVEN, "return f\"deliver {2048 * joined.place} {length}\""),
        ("not delivered", GIVEN, "need(False, 27)"),
        ("refused is 27", JUDGED, KEPT.format("raise Refused(27)")),
        ("refused is 29", JUDGED, KEPT.format("raise Refused(29)")),
        ("refused, its bytes cleared", JUDGED, KEPT.format("joined.within(memory)[:] = bytes(2048)")),
        ("delivered, its place not free", GIVEN, "self.collection.datagrams.append(joined)\n        " + GIVEN),
        ("refused, all places free", JUDGED, KEPT.format("self.collection.datagrams = []"))):
    wrong("node", "joined: " + name, old, new)
for number in (8, 9, 10):
    wrong("node", f"joined: place not free after {number}", JUDGED,
          KEPT.format(f"self.collection.datagrams += [joined] if refused.number == {number} else []"))
    wrong("node", f"joined: the last piece forgotten after {number}", JUDGED,
          KEPT.format(f"joined.taken.pop(); self.collection.datagrams += [joined] if refused.number == {number} else []"))

# ---- Whole datagrams beside pieces

WHOLE = "        if is_whole(datagram):\n"
FLUSH = "self.collection.datagrams = [one for one in self.collection.datagrams if one.key != Piece(datagram, header, total).key]\n"
DELIVERED = "            return f\"deliver {header} {length}\"\n"
for name, old, new in (
        ("5 still given", WHOLE, "        need(is_whole(datagram), 5)\n" + WHOLE),
        ("5 for a first piece", WHOLE, "        need(datagram[6] & 0x20 == 0 or not int.from_bytes(datagram[6:8], 'big') & 0x1fff == 0, 5)\n" + WHOLE),
        ("5 for a piece of a new key", TAKEN, "need(any(one.key == Piece(datagram, header, total).key for one in self.collection.live(self.latest)), 5)\n        " + TAKEN),
        ("flushes its key", WHOLE, WHOLE + "            " + FLUSH), ("flushes its key where it is delivered", DELIVERED, "            " + FLUSH + DELIVERED),
        ("flushes all", WHOLE, WHOLE + "            self.collection.datagrams = []\n"),
        ("of a live key is 29", WHOLE, WHOLE + "            need(all(one.key != Piece(datagram, header, total).key for one in self.collection.live(self.latest)), 29)\n"),
        ("of a live key is 27", WHOLE, WHOLE + "            need(all(one.key != Piece(datagram, header, total).key for one in self.collection.live(self.latest)), 27)\n"),
        ("renews its key", WHOLE, WHOLE + "            for one in self.collection.datagrams:\n                one.first = self.latest\n"),
        ("refused where all places are live", WHOLE, WHOLE + "            self.collection.lowest(self.latest)\n"),
        ("longer than 2,048 refused", WHOLE, WHOLE + "            need(total - header <= 2048, 30)\n"),
        ("empty refused by 30", WHOLE, WHOLE + "            need(total - header > 0, 30)\n"),
        ("no multiple of 8 refused", WHOLE, WHOLE + "            need((total - header) % 8 == 0, 30)\n")):
    wrong("node", "whole datagram: " + name, old, new)

# ---- Other calls

for name, old in (("sending", "        need(inner_length(packet) == len(packet), 8)\n"), ("a report", "        need(len(message) >= 28, 16)\n"),
                  ("a new router list", "        self.settings.check_routers(routers)\n"), ("an asking", "        need(len(output) >= 48, 15)\n"),
                  ("an advertisement", "        packet = packet[:inner_length(packet)]\n"), ("advertising", "        packet = asked[:inner_length(asked)]\n")):
    wrong("node", f"joining: what is collected forgotten by {name}", old, "        self.collection = Collection()\n" + old)
wrong("formats", "joining: what is collected forgotten by a refusal of another call", "        line = f\"refuse {refused.number}\"\n",
      "        line = f\"refuse {refused.number}\"\n        if name not in (\"receive\", \"report\") and refused.number != 11:\n            service.collection.datagrams = []\n")
for number in (2, 3, 4, 6, 7, 8, 9, 10, 15, 27, 28, 30):
    wrong("formats", f"joining: what is collected forgotten by {number}", "        line = f\"refuse {refused.number}\"\n",
          f"        line = f\"refuse {{refused.number}}\"\n        if name == \"receive\" and refused.number == {number}:\n"
          "            service.collection.datagrams = []\n")
