"""Wrong comparing of two recordings (R27), and wrong programs `recordings`."""
from .edits import wrong

# Texts that more than one edit changes
MASK = "    if masked and offset in MASKED:\n        return False\n"
PAST = "    if offset >= min(len(one), len(other)):\n        return offset < max(len(one), len(other))\n"
COUNTED = "    while len(found) < number(recording[:2]):\n"
END = "        end = place + 3 + number(recording[place + 1:place + 3])\n"
CUT = "        if len(recording) < end or len(recording) < place + 3:\n            raise Refused(31)\n"
BEHIND = "    if len(recording) != place:\n        raise Refused(31)\n"
SAME = "    if one == other:\n        return found\n"
RUNS = "    return found\n\n\ndef report"
JOINS = "if found and sum(found[-1]) == offset:"
WRITTEN = "            data += u16(place) + u16(offset) + u16(length)\n"
PAIRS = "enumerate(zip(first, second), 1)"
READ = "    first, second = datagrams(first), datagrams(second)\n"
MADE = "    data = report(masked, first, second)\n"
SHORT = "    if len(output) < len(data):\n        raise Refused(15)\n"
PUT = "    output[:len(data)] = data\n"
NEITHER = "    if len(first) == len(second):\n        return len(data), \"neither\"\n"
MORE = "\"first\" if len(first) > len(second) else \"second\""

# ---- Recordings, 31 and 15 (R27.1, R27.8)

for name, old, new in (
        ("a datagram that is cut off taken", END + CUT, END.replace("end = ", "end = min(len(recording), ")[:-1] + ")\n"),
        ("a datagram of which the length alone is there taken", END + CUT,
         END + "        if len(recording) == place + 3:\n            end = place + 3\n" + CUT),
        ("fewer datagrams than counted taken", COUNTED, "    while len(found) < number(recording[:2]) and place < len(recording):\n"),
        ("trailing bytes taken", BEHIND, BEHIND.replace("!=", "<")),
        ("a trailing byte taken", BEHIND, BEHIND.replace("len(recording) != place", "len(recording) not in (place, place + 1)")),
        ("an empty recording taken for no datagram", BEHIND, BEHIND.replace("!= place", "not in (place, 0)")),
        ("half a count taken for no datagram", BEHIND, "    if len(recording) not in (place, 1):\n        raise Refused(31)\n"),
        ("no datagram refused", BEHIND, BEHIND.replace("!= place:", "!= place or not found:")),
        ("a datagram without a byte refused", CUT, CUT.replace("len(recording) < end or", "end == place + 3 or len(recording) < end or")),
        ("a datagram without its last byte taken", END + CUT, END + CUT.replace("< end or", "< end - 1 or") + "        end = min(end, len(recording))\n"),
        ("count in one byte", COUNTED, COUNTED.replace("[:2]", "[1:2]")),
        ("count little-endian", COUNTED, "    while len(found) < int.from_bytes(recording[:2], 'little'):\n"),
        ("count of 15 bits", COUNTED, COUNTED.replace("number(recording[:2])", "number(recording[:2]) % 32768")),
        ("length little-endian", END, END.replace("number(recording[place + 1:place + 3])", "int.from_bytes(recording[place + 1:place + 3], 'little')")),
        ("length of 15 bits", END, END.replace("number(recording[place + 1:place + 3])", "number(recording[place + 1:place + 3]) % 32768")),
        ("length in one byte", END, END.replace("number(recording[place + 1:place + 3])", "number(recording[place + 2:place + 3])")),
        ("length with its head", END, END.replace("place + 3 + number", "place + number")),
        ("no interface", END, END.replace("place + 3 + number(recording[place + 1:place + 3])", "place + 3 + number(recording[place:place + 2])")),
        ("recordings above 64 KiB refused", BEHIND, BEHIND.replace("!= place:", "!= place or place > 65536:")),
        ("a malformed second recording taken for no datagram", READ,
         "    first = datagrams(first)\n    try:\n        second = datagrams(second)\n    except Refused:\n        second = []\n"),
        ("a malformed first recording taken for no datagram", READ,
         "    try:\n        first = datagrams(first)\n    except Refused:\n        first = []\n    second = datagrams(second)\n"),
        ("31 is another number", BEHIND, BEHIND.replace("31", "16")),
        ("31 of a cut recording is another number", CUT, CUT.replace("31", "8")),
        ("31 clears the output", READ, "    try:\n        first, second = datagrams(first), datagrams(second)\n"
         "    except Refused:\n        output[:] = bytes(len(output))\n        raise\n"),
        ("15 before 31 where there is no room at all", READ, "    if not output:\n        raise Refused(15)\n" + READ),
        ("15 before 31 where there is little room", READ, "    if len(output) < 6:\n        raise Refused(15)\n" + READ),
        ("15 for no runs in no room", SHORT, SHORT.replace("len(output) < len(data)", "len(output) < max(6, len(data))")),
        ("15 at the exact room", SHORT, SHORT.replace("<", "<=")),
        ("a byte too little is room", SHORT, SHORT.replace("< len(data)", "< len(data) - 1")),
        ("a run too much is written in part", SHORT, SHORT.replace("< len(data)", "< len(data) - 5")),
        ("15 writes what fits", SHORT, "    if len(output) < len(data):\n        output[:] = data[:len(output)]\n        raise Refused(15)\n"),
        ("15 writes whole runs that fit", SHORT, "    if len(output) < len(data):\n        fit = len(output) // 6 * 6\n        output[:fit] = data[:fit]\n        raise Refused(15)\n"),
        ("a report that does not fit is cut", SHORT, "    data = data[:len(output) // 6 * 6]\n"),
        ("15 is another number", SHORT, SHORT.replace("15", "31")),
        ("15 by the runs", SHORT, SHORT.replace("len(output) < len(data)", "len(output) < len(data) // 6")),
        ("15 by 16 bits of the report's length", SHORT, SHORT.replace("< len(data)", "< len(data) % 65536")),
        ("a report above 65,535 bytes gets 15", SHORT, SHORT.replace("len(output) < len(data)", "len(output) < len(data) or len(data) > 65535"))):
    wrong("comparing", "comparing: " + name, old, new)

# ---- Pairs, and when a byte differs (R27.2 to R27.4)

for name, old, new in (
        ("interfaces compared", "recording[place + 3:end]", "recording[place:place + 1] + recording[place + 3:end]"),
        ("lengths compared", "recording[place + 3:end]", "recording[place + 1:end]"),
        ("a pair of other interfaces left out", "        found.append(recording[place + 3:end])\n",
         "        found.append(recording[place + 3:end] if recording[place] == 7 else b'')\n"),
        ("datagrams without a partner compared", PAIRS, "enumerate(__import__('itertools').zip_longest(first, second, fillvalue=b''), 1)"),
        ("the second's datagrams without a partner compared", PAIRS, "enumerate(zip(first + [b''] * (len(second) - len(first)), second), 1)"),
        ("paired from the end", PAIRS, "enumerate(zip(first[::-1], second[::-1]), 1)"),
        ("the last pair left out", PAIRS, "list(enumerate(zip(first, second), 1))[:-1]"),
        ("the first pair left out", PAIRS, "list(enumerate(zip(first, second), 1))[1:]"),
        ("256 pairs at most", PAIRS, "list(enumerate(zip(first, second), 1))[:256]"),
        ("32,767 pairs at most", PAIRS, "list(enumerate(zip(first, second), 1))[:32767]"),
        ("65,534 pairs at most", PAIRS, "list(enumerate(zip(first, second), 1))[:65534]"),
        ("pairs of lengths that differ left out", SAME, "    if len(one) != len(other):\n        return found\n" + SAME),
        ("an empty datagram not compared", SAME, "    if not one or not other:\n        return found\n" + SAME),
        ("what is past the shorter end does not differ", PAST, "    if offset >= min(len(one), len(other)):\n        return False\n"),
        ("what the first alone has does not differ", PAST, PAST.replace("max(len(one), len(other))", "len(other)")),
        ("what the second alone has does not differ", PAST, PAST.replace("max(len(one), len(other))", "len(one)")),
        ("one byte past the shorter end differs", PAST, PAST.replace("offset < max(len(one), len(other))", "offset == min(len(one), len(other))")),
        ("what is past the shorter end differs from 0", PAST, PAST.replace("offset < max(len(one), len(other))", "(one + other)[offset] != 0")),
        ("the longer is compared with the shorter from its start again", PAST,
         "    if offset >= min(len(one), len(other)) > 0:\n        return one[offset % len(one)] != other[offset % len(other)]\n    if not one or not other:\n        return True\n"),
        ("masked past the shorter end", PAST, "    if masked and offset in MASKED:\n        return False\n" + PAST),
        ("what the first alone has is masked", PAST, "    if masked and offset in MASKED and offset >= len(other):\n        return False\n" + PAST),
        ("what the second alone has is masked", PAST, "    if masked and offset in MASKED and offset >= len(one):\n        return False\n" + PAST),
        ("always masked", "if masked and offset", "if offset"),
        ("never masked", MASK, ""),
        ("masked the other way round", "if masked and offset", "if not masked and offset"),
        ("masked where version 4 alone stands", "if masked and offset", "if masked and one[0] // 16 == 4 and offset"),
        ("masked where a whole header is there", "if masked and offset", "if masked and min(len(one), len(other)) >= 20 and offset"),
        ("masked where the last masked byte is there", "if masked and offset", "if masked and min(len(one), len(other)) >= 12 and offset"),
        ("masked where both bytes of a field are there", "if masked and offset", "if masked and min(len(one), len(other)) not in (5, 11) and offset"),
        ("masked in the first datagram alone", "runs(masked, one, other):\n            data", "runs(masked and place == 1, one, other):\n            data"),
        ("a lower byte does not differ", "one[offset] != other[offset]", "one[offset] < other[offset]"),
        ("a higher byte does not differ", "one[offset] != other[offset]", "one[offset] > other[offset]"),
        ("the highest bit does not count", "one[offset] != other[offset]", "one[offset] % 128 != other[offset] % 128"),
        ("the lowest bit does not count", "one[offset] != other[offset]", "one[offset] // 2 != other[offset] // 2"),
        ("equal bytes reported", "one[offset] != other[offset]", "one[offset] == other[offset]")):
    wrong("comparing", "comparing: " + name, old, new)

for masked, offsets in {"4": "5, 8, 10, 11", "5": "4, 8, 10, 11", "8": "4, 5, 10, 11", "10": "4, 5, 8, 11", "11": "4, 5, 8, 10"}.items():
    wrong("comparing", f"comparing: {masked} not masked", "MASKED = (4, 5, 8, 10, 11)", f"MASKED = ({offsets})")
for more in (0, 1, 2, 3, 6, 7, 9, 12, 13):
    wrong("comparing", f"comparing: {more} masked", "MASKED = (4, 5, 8, 10, 11)", f"MASKED = (4, 5, 8, 10, 11, {more})")
wrong("comparing", "comparing: offsets of a header with a link's before it masked", "MASKED = (4, 5, 8, 10, 11)", "MASKED = (18, 19, 22, 24, 25)")

# ---- Runs and the report (R27.5 to R27.7)

for name, old, new in (
        ("each byte a run", JOINS, "if False:"),
        ("runs joined across an equal byte", JOINS, "if found and sum(found[-1]) >= offset - 1:\n                found[-1] = (found[-1][0], offset - found[-1][0])\n            if " + JOINS[3:]),
        ("all runs of a pair as one", JOINS, "if found:\n                found[-1] = (found[-1][0], offset - found[-1][0])\n            if " + JOINS[3:]),
        ("a masked byte kept inside a run", JOINS,
         "if masked and found and all(between in MASKED for between in range(sum(found[-1]), offset)):\n"
         "                found[-1] = (found[-1][0], offset - found[-1][0])\n            if " + JOINS[3:]),
        ("a masked byte that follows a run kept in it", RUNS,
         "    return [(start, length + (masked and start + length in MASKED and start + length < min(len(one), len(other)))) for start, length in found]\n\n\ndef report"),
        ("a run cut at the shorter end", JOINS, JOINS[:-1] + " and offset != min(len(one), len(other)):"),
        ("a run cut at 256 bytes", JOINS, JOINS[:-1] + " and found[-1][1] < 256:"),
        ("a run cut at offset 16", JOINS, JOINS[:-1] + " and offset != 16:"),
        ("a run cut at offset 32", JOINS, JOINS[:-1] + " and offset != 32:"),
        ("a run cut at offset 12", JOINS, JOINS[:-1] + " and offset != 12:"),
        ("a run cut at each 64 bytes", JOINS, JOINS[:-1] + " and offset % 64:"),
        ("a run at the end left out", RUNS, "    return [run for run in found if sum(run) < max(len(one), len(other))]\n\n\ndef report"),
        ("a run of one byte left out", RUNS, "    return [run for run in found if run[1] > 1]\n\n\ndef report"),
        ("a run at the start left out", RUNS, "    return [run for run in found if run[0] > 0]\n\n\ndef report"),
        ("the first run of a pair alone", RUNS, "    return found[:1]\n\n\ndef report"),
        ("the last run of a pair alone", RUNS, "    return found[-1:]\n\n\ndef report"),
        ("the longest run of a pair alone", RUNS, "    return sorted(found, key=lambda one: -one[1])[:1]\n\n\ndef report"),
        ("runs from the end on", RUNS, "    return found[::-1]\n\n\ndef report"),
        ("runs by length", RUNS, "    return sorted(found, key=lambda one: -one[1])\n\n\ndef report"),
        ("datagrams from 0", PAIRS, "enumerate(zip(first, second), 0)"),
        ("datagrams counted where they differ alone", PAIRS, "enumerate((pair for pair in zip(first, second) if pair[0] != pair[1]), 1)"),
        ("datagrams from the last on", PAIRS, "list(enumerate(zip(first, second), 1))[::-1]"),
        ("offsets from 1", WRITTEN, WRITTEN.replace("u16(offset)", "u16(offset + 1)")),
        ("offsets in the recording", WRITTEN, WRITTEN.replace("u16(offset)", "u16((offset + 5) % 65536)")),
        ("the last offset for the length", WRITTEN, WRITTEN.replace("u16(length)", "u16(offset + length - 1)")),
        ("the end for the length", WRITTEN, WRITTEN.replace("u16(length)", "u16(offset + length)")),
        ("length less 1", WRITTEN, WRITTEN.replace("u16(length)", "u16(length - 1)")),
        ("offset before datagram", WRITTEN, WRITTEN.replace("u16(place) + u16(offset)", "u16(offset) + u16(place)")),
        ("length before offset", WRITTEN, WRITTEN.replace("u16(offset) + u16(length)", "u16(length) + u16(offset)")),
        ("numbers little-endian", WRITTEN, WRITTEN.replace("u16(place)", "u16(place)[::-1]")),
        ("offsets little-endian", WRITTEN, WRITTEN.replace("u16(offset)", "u16(offset)[::-1]")),
        ("lengths little-endian", WRITTEN, WRITTEN.replace("u16(length)", "u16(length)[::-1]")),
        ("numbers of one byte", WRITTEN, WRITTEN.replace("u16(place)", "u16(place % 256)")),
        ("numbers of 15 bits", WRITTEN, WRITTEN.replace("u16(place)", "u16(place % 32768)")),
        ("offsets of one byte", WRITTEN, WRITTEN.replace("u16(offset)", "u16(offset % 256)")),
        ("offsets of 15 bits", WRITTEN, WRITTEN.replace("u16(offset)", "u16(offset % 32768)")),
        ("lengths of one byte", WRITTEN, WRITTEN.replace("u16(length)", "u16(length % 256)")),
        ("lengths of 15 bits", WRITTEN, WRITTEN.replace("u16(length)", "u16(length % 32768)")),
        ("a length of 65,535 written as 0", WRITTEN, WRITTEN.replace("u16(length)", "u16(length % 65535)")),
        ("a run's length of four bytes", WRITTEN, WRITTEN.replace("u16(length)", "bytes(2) + u16(length)")),
        ("a report of nothing always", MADE, "    data = bytearray()\n"),
        ("the report at the output's end", PUT, "    output[len(output) - len(data):] = data\n"),
        ("the report not written", PUT, ""),
        ("bytes behind the report cleared", PUT, "    output[:] = data + bytes(len(output) - len(data))\n"),
        ("a byte behind the report written", PUT, PUT + "    output[len(data):len(data) + 1] = output[len(data):len(data) + 1] and b'\\0'\n"),
        ("more the other way round", MORE, "\"first\" if len(first) < len(second) else \"second\""),
        ("more by the bytes", MORE, "\"first\" if sum(map(len, first)) > sum(map(len, second)) else \"second\""),
        ("neither never said", NEITHER, ""),
        ("neither always said", NEITHER, "    return len(data), \"neither\"\n"),
        ("neither where there are no runs", NEITHER, "    if len(first) == len(second) or not data:\n        return len(data), \"neither\"\n"),
        ("one datagram more is not more", NEITHER, "    if abs(len(first) - len(second)) < 2:\n        return len(data), \"neither\"\n"),
        ("the first only is more", MORE, "\"first\" if len(first) > len(second) else \"neither\""),
        ("the count of runs for the length", NEITHER, NEITHER.replace("len(data)", "len(data) // 6")),
        ("the room for the length", NEITHER, NEITHER.replace("len(data)", "len(output) // 6 * 6"))):
    wrong("comparing", "comparing: " + name, old, new)

# ---- The program's input and lines (docs/REPLAY.md)

for name, old, new in (
        ("input longer than 1 MiB taken", "HEAD <= len(data) <= LIMIT", "HEAD <= len(data)"),
        ("input of 1 MiB bad", "HEAD <= len(data) <= LIMIT", "HEAD <= len(data) < LIMIT"),
        ("nine bytes bad", "if not HEAD <= len(data)", "if not HEAD < len(data)"),
        ("no byte gives no line", "    if not good(data):\n", "    if not data:\n        return\n    if not good(data):\n"),
        ("masked of any value", "data[0] <= 1 and ", ""),
        ("masked of 2 taken", "data[0] <= 1 and ", "data[0] <= 2 and "),
        ("masked by its lowest bit", "data[0] <= 1 and ", "data[0] in (0, 1, 255) and "),
        ("masked the other way round", "data[0] == 1", "data[0] == 0"),
        ("never masked", "data[0] == 1", "False"),
        ("room of any number", "number(data[1:5]) <= LIMIT and ", "number(data[1:5]) <= LIMIT + 1 and "),
        ("the largest room bad", "number(data[1:5]) <= LIMIT and ", "number(data[1:5]) < LIMIT and "),
        ("room of three bytes", "number(data[1:5]) <= LIMIT", "number(data[2:5]) <= LIMIT"),
        ("a first recording that is cut off taken", "HEAD + number(data[5:9]) <= len(data)", "True"),
        ("a first recording up to the end bad", "HEAD + number(data[5:9]) <= len(data)", "HEAD + number(data[5:9]) < len(data)"),
        ("a first recording a byte longer taken", "HEAD + number(data[5:9]) <= len(data)", "HEAD + number(data[5:9]) <= len(data) + 1"),
        ("the length of the input compared without its head", "HEAD + number(data[5:9]) <= len(data)", "number(data[5:9]) <= len(data)"),
        ("a first recording without a byte bad", "    return data[0] <= 1", "    return data[5:9] != bytes(4) and data[0] <= 1"),
        ("length of three bytes", "HEAD + number(data[5:9]) <= len(data)", "HEAD + number(data[6:9]) <= len(data)"),
        ("31 before bad input", "    if not good(data):\n",
         "    try:\n        compare(False, data[HEAD:HEAD + number(data[5:9])], data[HEAD + number(data[5:9]):], bytearray(LIMIT))\n"
         "    except Refused as refused:\n        yield f\"refuse {refused.number} {digest(b'')}\"\n        return\n    if not good(data):\n"),
        ("a bad input is 31", "        yield \"bad input\"\n", "        yield \"refuse 31 811c9dc5\"\n"),
        ("recordings exchanged", "data[HEAD:second], data[second:]", "data[second:], data[HEAD:second]"),
        ("length of the second recording in its place", "    second = HEAD + number(data[5:9])\n", "    second = len(data) - number(data[5:9])\n"),
        ("an output of zeros", "bytearray(b\"\\xa5\" * number(data[1:5]))", "bytearray(number(data[1:5]))"),
        ("the largest output always", "b\"\\xa5\" * number(data[1:5])", "b\"\\xa5\" * LIMIT"),
        ("digest of the report alone", "yield f\"compared {length} {more} {digest(output)}\"", "yield f\"compared {length} {more} {digest(output[:length])}\""),
        ("no digest of a refusal", "{refused.number} {digest(output)}", "{refused.number}"),
        ("digest of nothing for a refusal", "{refused.number} {digest(output)}", "{refused.number} 811c9dc5"),
        ("runs in the place of bytes", "compared {length}", "compared {length // 6}"),
        ("no run lines", "range(0, length, 6)", "range(0)"),
        ("run lines of what the output held", "range(0, length, 6)", "range(0, len(output) // 6 * 6, 6)"),
        ("the last run line left out", "range(0, length, 6)", "range(0, length - 6, 6)"),
        ("at most 10,922 run lines", "range(0, length, 6)", "range(0, min(length, 65536), 6)"),
        ("a run line's offset and length exchanged", "(place, place + 2, place + 4)", "(place, place + 4, place + 2)"),
        ("the end of a run in its line", "        yield \" \".join(str(", "        output[place + 4:place + 6] = (number(output[place + 2:place + 4]) + number(output[place + 4:place + 6])).to_bytes(2, 'big')\n        yield \" \".join(str("),
        ("words exchanged", "{length} {more} {digest", "{more} {length} {digest")):
    wrong("recordings", "recordings: " + name, old, new)
wrong("recordings", "recordings: digest before the call", "    try:\n", "    before = digest(output)\n    try:\n", ("{more} {digest(output)}", "{more} {before}"))
wrong("recordings", "recordings: a larger room taken for the largest", "number(data[1:5]) <= LIMIT and ", "",
      ("b\"\\xa5\" * number(data[1:5])", "b\"\\xa5\" * min(LIMIT, number(data[1:5]))"))
