"""Wrong reports and path sizes."""
from .edits import swapped, wrong

for name, old, new in (
        ("27 bytes taken", "need(len(message) >= 28, 16)",
         "need(len(message) >= 27, 16); message = message + bytes(max(0, 28 - len(message)))"),
        ("29 bytes asked", "need(len(message) >= 28, 16)", "need(len(message) >= 29, 16)"),
        ("36 bytes asked", "need(len(message) >= 28, 16)", "need(len(message) >= 36, 16)"),
        ("checksum not asked", "need(checksum_right(message), 16)", "pass"),
        ("a checksum field of 0 admitted", "need(checksum_right(message), 16)",
         "need(checksum_right(message) or message[2:4] == b'\\0\\0', 16)"),
        ("a checksum field of 0 refused", "need(checksum_right(message), 16)",
         "need(checksum_right(message) and message[2:4] != b'\\0\\0', 16)"),
        ("checksum over eight bytes", "need(checksum_right(message), 16)", "need(checksum_right(message[:8]), 16)"),
        ("checksum over 28 bytes", "need(checksum_right(message), 16)", "need(checksum_right(message[:28]), 16)"),
        ("checksum over 36 bytes", "need(checksum_right(message), 16)", "need(checksum_right(message[:36]), 16)"),
        ("checksum without a last odd byte", "need(checksum_right(message), 16)",
         "need(checksum_right(message[:len(message) // 2 * 2]), 16)"),
        ("type not asked", "need(message[:2] == b\"\\3\\4\", 16)", "need(message[1] == 4, 16)"),
        ("code not asked", "need(message[:2] == b\"\\3\\4\", 16)", "need(message[0] == 3, 16)"),
        ("quoted version not asked", "need(quoted[0] >> 4 == 4, 16)", "pass"),
        ("quoted version below 4 taken", "need(quoted[0] >> 4 == 4, 16)", "need(quoted[0] >> 4 <= 4, 16)"),
        ("quoted header without its last word taken", "need(4 * (quoted[0] & 15) <= len(quoted), 16)",
         "need(4 * (quoted[0] & 14) <= len(quoted), 16)"),
        ("quoted words under 5 taken", "need(20 <= 4 * (quoted[0] & 15), 16)", "pass"),
        ("quoted header cut off taken", "need(4 * (quoted[0] & 15) <= len(quoted), 16)", "pass"),
        ("quoted header cut off refused with 17", "need(4 * (quoted[0] & 15) <= len(quoted), 16)",
         "need(4 * (quoted[0] & 15) <= len(quoted), 17)"),
        ("eight bytes behind the quoted header asked", "need(4 * (quoted[0] & 15) <= len(quoted), 16)",
         "need(8 + 4 * (quoted[0] & 15) <= len(quoted), 16)"),
        ("quoted options refused", "need(20 <= 4 * (quoted[0] & 15), 16)", "need(20 == 4 * (quoted[0] & 15), 16)"),
        ("quoted header's checksum asked", "need(quoted[9] == 41, 17)",
         "need(quoted[9] == 41 and checksum_right(quoted[:4 * (quoted[0] & 15)]), 17)"),
        ("quoted total length asked to be above the header", "need(quoted[9] == 41, 17)",
         "need(quoted[9] == 41 and quoted[2:4] >= bytes((0, 60)), 17)"),
        ("quoted pieces refused", "need(quoted[9] == 41, 17)", "need(quoted[9] == 41 and quoted[6] & 0x1f == quoted[7] == 0, 17)"),
        ("unused bytes asked to be 0", "need(quoted[9] == 41, 17)", "need(quoted[9] == 41 and message[4:6] == b'\\0\\0', 17)"),
        ("quoted protocol not asked", "need(quoted[9] == 41, 17)", "pass"),
        ("quoted source not asked", "need(self.settings.own(quoted[12:16]), 17)", "pass"),
        ("quoted source of the first locator alone", "need(self.settings.own(quoted[12:16]), 17)",
         "need(quoted[12:16] == self.settings.locators[0][0], 17)"),
        ("quoted destination forbidden taken", "need(not forbidden(neighbour), 17)", "pass"),
        ("quoted destination of our own taken", "need(not self.settings.own(neighbour), 17)", "pass"),
        ("quoted destination refused only if it is the quoted source", "need(not self.settings.own(neighbour), 17)",
         "need(neighbour != quoted[12:16], 17)"),
        ("quoted addresses swapped", "neighbour = quoted[16:20]",
         "quoted = quoted[:12] + quoted[16:20] + quoted[12:16] + quoted[20:]; neighbour = quoted[16:20]"),
        ("size 67 accepted", "need(candidate >= 68, 18)", "need(candidate >= 67, 18)"),
        ("size 68 refused", "need(candidate >= 68, 18)", "need(candidate > 68, 18)"),
        ("sizes below 1,280 refused", "need(candidate >= 68, 18)", "need(candidate >= 1280, 18)"),
        ("sizes below 68 read as 68", "need(candidate >= 68, 18)", "candidate = max(68, candidate)"),
        ("no plateau read as 68", "candidate = reported_candidate(message, quoted)",
         "candidate = reported_candidate(message, quoted) or 68"),
        ("sizes not above 68 asked for the plateau", "candidate = reported_candidate(message, quoted)",
         "candidate = reported_candidate(message[:6] + bytes(2) if message[6:8] < bytes((0, 68)) else message, quoted)"),
        ("plateau by the size in force", "candidate = reported_candidate(message, quoted)",
         "candidate = reported_candidate(message, quoted[:2] + self.size(neighbour).to_bytes(2, 'big'))"),
        ("header taken off the candidate", "self.record.append((neighbour, candidate, self.latest))",
         "self.record.append((neighbour, candidate - 20, self.latest))"),
        ("an equal size accepted, which renews its age", "need(candidate < self.size(neighbour), 19)",
         "need(candidate <= self.size(neighbour), 19)"),
        ("a larger size accepted while it is below L", "need(candidate < self.size(neighbour), 19)",
         "need(candidate < self.settings.link, 19)"),
        ("any size accepted", "need(candidate < self.size(neighbour), 19)", "pass"),
        ("19 judged against L alone", "need(candidate < self.size(neighbour), 19)",
         "need(candidate < self.settings.link, 19)\n        candidate = min(candidate, self.size(neighbour))"),
        ("the first report kept, later ones accepted and ignored", "        self.record.append((neighbour, candidate, self.latest))\n",
         "        if neighbour not in [one for one, _, _ in self.record]:\n            self.record.append((neighbour, candidate, self.latest))\n"),
        ("accepted reports not kept", "        self.record.append((neighbour, candidate, self.latest))\n", ""),
        ("the reported size kept for all neighbours", "            if reporter == neighbour:\n", "            if True:\n"),
        ("kept by 24 bits of the neighbour", "            if reporter == neighbour:\n", "            if reporter[:3] == neighbour[:3]:\n"),
        ("a report's age counted from its own time", "self.record.append((neighbour, candidate, self.latest))",
         "self.record.append((neighbour, candidate, time))"),
        ("a lower report keeps the age of the first", "self.record.append((neighbour, candidate, self.latest))",
         "self.record.append((neighbour, candidate, next((since for one, _, since in self.record[::-1] if one == neighbour and "
         "self.size(neighbour) != self.settings.link), self.latest)))"),
        ("a reported size above L kept", "need(candidate < self.size(neighbour), 19)",
         "need(candidate < (self.size(neighbour) if self.size(neighbour) < self.settings.link else 65535), 19)"),
        ("the answer names the size that was in force", "return f\"accepted {dotted(neighbour)} {candidate}\"",
         "return f\"accepted {dotted(neighbour)} {self.settings.link}\""),
        ("the answer names the quoted source", "return f\"accepted {dotted(neighbour)} {candidate}\"",
         "return f\"accepted {dotted(quoted[12:16])} {candidate}\""),
        ("in force at 600 s", "self.latest - time < 600", "self.latest - time <= 600"),
        ("gone at 599 s", "self.latest - time < 600", "self.latest - time < 599"),
        ("never gone", "self.latest - time < 600 and", ""),
        ("age reckoned in 16 bits", "self.latest - time < 600", "(self.latest - time) % 65536 < 600"),
        ("age reckoned in 8 bits of minutes", "self.latest - time < 600", "(self.latest - time) // 60 % 256 < 10"),
        ("age reckoned in 31 bits", "self.latest - time < 600", "(self.latest - time) % 2 ** 31 < 600"),
        ("gone after ten minutes of the clock", "self.latest - time < 600", "self.latest // 600 == time // 600"),
        ("other neighbours removed from the 63rd on", "len(others) < 64", "len(others) < 63"),
        ("other neighbours removed from the 65th on", "len(others) < 64", "len(others) < 65"),
        ("all neighbours kept", " and len(others) < 64", ""),
        ("16 neighbours kept", "len(others) < 64", "len(others) < 16"),
        ("all other neighbours counted, not those since", "len(others) < 64",
         "len({one for one, _, _ in self.record} - {neighbour}) < 64"),
        ("an old size in place of L", "if kept else self.settings.link",
         "if kept else min(self.settings.link, candidate + 1000)"),
        ("what the first of a neighbour's reports said", "for reporter, candidate, time in reversed(self.record):",
         "for reporter, candidate, time in self.record:"),
        ("the least of a neighbour's reports", "                return min(candidate, self",
         "                candidate = min(size for one, size, _ in self.record if one == neighbour)\n                return min(candidate, self")):
    wrong("node", "path sizes: " + name, old, new)
SIZE = '''        others = set()
        for reporter, candidate, time in reversed(self.record):
            if reporter == neighbour:
                kept = self.latest - time < 600 and len(others) < 64
                return min(candidate, self.settings.link) if kept else self.settings.link
            others.add(reporter)
        return self.settings.link
'''
TABLE = '''        table = {}
        for reporter, candidate, time in self.record:
            if reporter not in table and len(table) == 64:
                EVICT
            MOVE
            table[reporter] = candidate, time
        candidate, time = table.get(neighbour, (0, -600))
        return min(candidate, self.settings.link) if self.latest - time < 600 else self.settings.link
'''
MOVE = "table.pop(reporter, None)"


def table(name, evict, move=MOVE):
    """The sizes kept in a table of 64 rows; a row is removed before a new one is added."""
    wrong("node", "path sizes: " + name, SIZE, TABLE.replace("EVICT", evict).replace("MOVE", move))


table("removed by the first report, not the last", "table.pop(next(iter(table)))", "pass")
table("removed by time, the row added first on a tie", "table.pop(min(table, key=lambda one: table[one][1]))", "pass")
table("removed by time, the row added last on a tie", "table.pop(min(reversed(table), key=lambda one: table[one][1]))")
table("the last one removed", "table.popitem()")
table("the largest size removed", "table.pop(max(table, key=lambda one: table[one][0]))")
table("the smallest size removed", "table.pop(min(table, key=lambda one: table[one][0]))")
table("the lowest address removed", "table.pop(min(table))")
table("a new neighbour not kept while 64 are", "continue")
table("all forgotten with the 65th", "table.clear()")
table("a repeated report removes another when the table is full", "table.pop(next(iter(table)))",
      "if reporter in table and len(table) == 64: table.pop(next(iter(table)))\n            table.pop(reporter, None)")
table("old rows leave no place",
      "if self.latest - table[next(iter(table))][1] >= 600: continue\n                table.pop(next(iter(table)))")
wrong("node", "path sizes: repeated reports counted twice among the others", SIZE,
      SIZE.replace("others = set()", "others = []").replace("others.add(", "others.append("))


def silent(name, condition, change):
    """19 is given, and yet the record changes; `now` is the size in force."""
    wrong("node", "path sizes: " + name, "        need(candidate < self.size(neighbour), 19)\n",
          f"        now, last = self.size(neighbour), [one for one in self.record if one[0] == neighbour][-1:]\n"
          f"        if candidate >= now and {condition}:\n            {change}\n        need(candidate < now, 19)\n")


silent("a larger report raises the size silently while 19 is given", "now < candidate < self.settings.link",
       "self.record.append((neighbour, candidate, self.latest))")
silent("an equal report renews the age silently while 19 is given", "now == candidate < self.settings.link",
       "self.record.append((neighbour, candidate, self.latest))")
silent("a larger report renews the age silently while 19 is given", "now < candidate and now < self.settings.link",
       "self.record.append((neighbour, now, self.latest))")
silent("a larger report makes the size forgotten while 19 is given", "now < candidate and last",
       "self.shared.record = [one for one in self.record if one[0] != neighbour]")
silent("a report at or above L makes the size forgotten while 19 is given", "candidate >= self.settings.link and last",
       "self.shared.record = [one for one in self.record if one[0] != neighbour]")
silent("a report refused with 19 counts among the others", "now == self.settings.link",
       "self.record.append((neighbour, now, self.latest))")
silent("a report refused with 19 makes its neighbour the last one", "last and now < self.settings.link",
       "self.record.append((neighbour, now, last[0][2]))")
for plateau in (65535, 32000, 17914, 8166, 4352, 2002, 1492, 1006, 508, 296, 68):
    if plateau < 9216:                                        # a larger one is 19 at every L, as any larger candidate
        wrong("rules", f"plateau {plateau} missing", f"{plateau}, " if plateau != 68 else ", 68", "" if plateau != 68 else "")
wrong("rules", "plateaus: the quoted length itself", "if plateau < number(quoted[2:4])", "if plateau <= number(quoted[2:4])")
wrong("rules", "plateaus: the smallest one", "max(below, default=0)", "min(below, default=0)")
wrong("rules", "plateaus: never asked", "return number(message[6:8]) or max(below, default=0)", "return number(message[6:8])")
wrong("rules", "plateaus: always asked", "return number(message[6:8]) or max(below, default=0)", "return max(below, default=0)")
wrong("rules", "plateaus: by the bytes quoted", "if plateau < number(quoted[2:4])", "if plateau < len(quoted)")
wrong("rules", "plateaus: by the packet without its outer header", "if plateau < number(quoted[2:4])",
      "if plateau < number(quoted[2:4]) - 20")
wrong("rules", "plateaus: without a plateau the quoted length", "max(below, default=0)", "max(below, default=number(quoted[2:4]))")
wrong("rules", "candidate: four bytes", "return number(message[6:8]) or", "return number(message[4:8]) or")
wrong("rules", "candidate: bytes 4 and 5", "return number(message[6:8]) or", "return number(message[4:6]) or")
wrong("rules", "candidate: the lower byte alone asked to be 0", "return number(message[6:8]) or",
      "return message[7] and number(message[6:8]) or")
wrong("rules", "candidate: the lower of reported size and plateau", "return number(message[6:8]) or max(below, default=0)",
      "return min(number(message[6:8]) or 65535, max(below, default=65535)) % 65535")
