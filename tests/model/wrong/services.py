"""Wrong services."""
from .edits import wrong

# With this each service sees all of its node as self.shared.services
ALL = ("        self.settings, self.shared = settings, shared\n",
       "        self.settings, self.shared = settings, shared\n        shared.__dict__.setdefault('services', []).append(self)\n")
ANY = "any(one.{} for one in self.shared.services)"
OTHERS = "any({} for one in self.shared.services if one is not self)"


def seeing_both(name, *edits):
    wrong("node", "services: " + name, *ALL, *edits)


# ---- Settings

APART = "            need(not any(second.own(locator) for locator, _ in first.locators), 1)\n"
for name, old, new in (
        ("an address in both taken", APART, ""),
        ("an address in both refused only on one interface", APART, "            need(not any(locator in second.locators for locator in first.locators), 1)\n"),
        ("the first's first locator alone compared", APART, APART.replace("first.locators", "first.locators[:1]")),
        ("the first's eighth locator not compared", APART, APART.replace("first.locators", "first.locators[:7]")),
        ("the second's first locator alone compared", APART, APART.replace("second.own(locator)", "locator == second.locators[0][0]")),
        ("the second's last locator alone compared", APART, APART.replace("second.own(locator)", "locator == second.locators[-1][0]")),
        ("locators of the same places compared", APART, "            need(all(one[0] != other[0] for one, other in zip(first.locators, second.locators)), 1)\n"),
        ("an interface in both refused", APART, APART + "            need(not {one for _, one in first.locators} & {one for _, one in second.locators}, 1)\n"),
        ("a router in both refused", APART, APART + "            need(not set(first.routers) & set(second.routers), 1)\n"),
        ("a prefix in both refused", APART, APART + "            need(not set(first.prefixes) & set(second.prefixes), 1)\n"),
        ("a router of the first that is a locator of the second refused", APART, APART + "            need(not any(map(second.own, first.routers)), 1)\n"),
        ("a router of the second that is a locator of the first refused", APART, APART + "            need(not any(map(first.own, second.routers)), 1)\n"),
        ("the first's settings not asked where there are two", "        first.check()\n",
         "        second or first.check()\n        first.reporting = first.reporting or bytes(15) + b'\\1'\n"),
        ("the second's TTL not asked", "            second.check()\n",
         "            ttl, second.ttl = second.ttl, 1\n            second.check()\n            second.ttl = ttl\n"),
        ("the second's routers not asked", "            second.check()\n",
         "            routers, second.routers = second.routers, []\n            second.check()\n            second.routers = routers\n"),
        ("the second's link size not asked", "            second.check()\n",
         "            link, second.link = second.link, 1500\n            second.check()\n            second.link = link\n"),
        ("a larger link size of the second refused", APART, APART + "            need(second.link <= first.link, 1)\n"),
        ("the second's default reporting address that of the first", "            second.check()\n",
         "            second.reporting = second.reporting or first.reporting\n            second.check()\n")):
    wrong("node", "services: settings: " + name, old, new)
for field in ("prefixes", "routers", "link", "ttl", "interval", "identification", "reporting"):
    for one, other in (("first", "second"), ("second", "first")):
        wrong("node", f"services: settings: {field} of the {one} for both", APART, f"{APART}            {other}.{field} = {one}.{field}\n",
              *[("        self.services = [Service(first, self.shared), Absent(self.shared)]\n", "        self.services = [None, Absent(self.shared)]\n"),
                ("            self.services[1] = Service(second, self.shared)\n", "            self.services[1] = Service(second, self.shared)\n"
                 "        self.services[0] = Service(first, self.shared)\n")])

# ---- Path sizes

KEPT = "min(candidate, self.settings.link) if kept"
GIVEN = "        return owner.report(time, message)\n"
JUDGED = ("        link, owner.settings.link = owner.settings.link, {}\n        try:\n            return owner.report(time, message)\n"
          "        finally:\n            owner.settings.link = link\n")
for name, old, new in (
        ("a kept size above L in force", KEPT, "candidate if kept"),
        ("a kept size above L in force in sending", "path = self.size(end)",
         "path = next((kept for one, kept, since in reversed(self.record) if one == end and self.latest - since < 600), self.settings.link)"),
        ("a kept size at L or above makes it 1,280", KEPT, "(candidate if candidate < self.settings.link else 1280) if kept"),
        ("a kept size above L keeps others from being accepted", "need(candidate < self.size(neighbour), 19)",
         "need(candidate < self.size(neighbour) and self.settings.link >= ([0] + [one[1] for one in self.record if one[0] == neighbour])[-1], 19)"),
        ("19 by the first's link size", GIVEN, JUDGED.format("present[0].settings.link")),
        ("19 by the second's link size", GIVEN, JUDGED.format("present[-1].settings.link")),
        ("19 by the smaller link size", GIVEN, JUDGED.format("min(one.settings.link for one in present)")),
        ("19 by the larger link size", GIVEN, JUDGED.format("max(one.settings.link for one in present)")),
        ("19 by the other's link size", GIVEN, JUDGED.format("[one for one in present if one is not owner or len(present) == 1][0].settings.link")),
        ("a size above the other's L accepted and not kept", GIVEN,
         "        given = owner.report(time, message)\n        least = min(one.settings.link for one in present)\n"
         "        self.shared.record = [one for one in self.shared.record if one[1] < least]\n        return given\n"),
        ("a size above the other's L kept as that L", GIVEN,
         "        given = owner.report(time, message)\n        neighbour, candidate, since = self.shared.record.pop()\n"
         "        self.shared.record.append((neighbour, min(candidate, *[each.settings.link for each in present], 9216), since))\n        return given\n"),
        ("sizes kept for each by itself", "        return self.shared.record\n", "        return self.__dict__.setdefault('kept', [])\n"),
        ("19 forgets what the other's report kept", GIVEN, "        try:\n            return owner.report(time, message)\n        except Refused as refused:\n"
         "            if refused.number == 19:\n                self.shared.record = [one for one in self.shared.record if one[0] != message[24:28]]\n            raise\n")):
    wrong("node", "services: path sizes: " + name, old, new)
ENTERED = ("self.record.append((neighbour, candidate, self.latest))",
           "self.record.append((neighbour, candidate, self.latest)); self.shared.__dict__.setdefault('by', {})[id(self.record[-1])] = self")
LOOKED = "        for reporter, candidate, time in reversed(self.record):\n"
NOTHING_KEPT = "            others.add(reporter)\n        return self.settings.link\n"
for name, others in (("first", "[1:]"), ("second", "[:1]")):
    seeing_both(f"path sizes: reports of the {name} count for it alone", ENTERED, (LOOKED, LOOKED.replace(
        "reversed(self.record)", f"[one for one in reversed(self.record) if self.shared.by[id(one)] in (self, *self.shared.services{others})]")))
seeing_both("path sizes: the other neighbours of its own reports alone counted", ENTERED,
            (LOOKED, "        for entry in reversed(self.record):\n            reporter, candidate, time = entry\n"),
            ("            others.add(reporter)\n", "            if self.shared.by[id(entry)] is self:\n                others.add(reporter)\n"))
seeing_both("path sizes: the first's link size where nothing is kept", (NOTHING_KEPT, NOTHING_KEPT.replace("self.settings", "self.shared.services[0].settings")))
seeing_both("path sizes: the smaller link size for both", (KEPT, "min(candidate, *[one.settings.link for one in self.shared.services], 9216) if kept"),
            (NOTHING_KEPT, NOTHING_KEPT.replace("self.settings.link", "min(one.settings.link for one in self.shared.services)")))

# ---- Whose report it is

OWNER = "next((service for service in present if service.settings.own(message[20:24])), present[0])"
for name, new in (
        ("every report the first's", "present[0]"), ("every report the second's", "present[-1]"),
        ("by the quoted destination", OWNER.replace("[20:24]", "[24:28]")),
        ("the other's by the quoted destination", OWNER.replace("service.settings.own(message[20:24])", "not service.settings.own(message[24:28])")),
        ("by the first locator alone", OWNER.replace("service.settings.own(message[20:24])", "service.settings.locators[0][0] == message[20:24]")),
        ("by 24 bits of the quoted source", OWNER.replace("service.settings.own(message[20:24])", "any(one[:3] == message[20:23] for one, _ in service.settings.locators)")),
        ("by the smaller link size", "min(present, key=lambda one: one.settings.link)"),
        ("by who has the size lower", "min(present, key=lambda one: one.size(message[24:28]))")):
    wrong("node", f"services: reports: {name}", OWNER, new)
for name, old, new in (
        ("a report of the second without a time", GIVEN, "        return owner.report(time if owner is present[0] else 0, message)\n"),
        ("a quoted source of neither taken for the first's", "need(self.settings.own(quoted[12:16]), 17)",
         "need(self.settings.own(quoted[12:16]) or not self.settings.own(neighbour), 17)"),
        ("17 for every report of the second", GIVEN, "        need(owner is present[0], 17)\n" + GIVEN),
        ("17 where source and destination are of this node", GIVEN,
         "        need(message[:2] != b'\\3\\4' or len(message) < 28 or owner.settings.own(message[24:28])"
         " or not any(one.settings.own(message[24:28]) for one in present), 17)\n" + GIVEN)):
    wrong("node", "services: reports: " + name, old, new)

# ---- Addresses, prefixes and routers of both

OWN_END = "need(not forbidden(end) and not self.settings.own(end), 13)"
OWN_NEIGHBOUR = "need(not self.settings.own(neighbour), 17)"
MATCHED = "need((datagram[16:20], interface) in self.settings.locators, 6)"
NUMBERED = "        need(index < len(self.settings.locators), 11)\n        return self.settings.locators[index][0]\n"
LISTED = "return address in [router for router, _ in self.routers]"
CHECKED = "        self.settings.check_routers(routers)\n        due"
DUE = "        due = dict(self.routers)\n"
NEW_LIST = "        self.routers = [(router, due.get(router, self.latest)) for router in routers]\n"
SET_DUE = "        self.routers = [(other, time if other == router else due) for other, due in self.routers]\n"
EACH = "        for one in self.shared.services:\n            "
for name, old, new in (
        ("our own in 13 is of both", OWN_END, f"need(not forbidden(end) and not {ANY.format('settings.own(end)')}, 13)"),
        ("our own in 13 is the first's", OWN_END, "need(not forbidden(end) and not self.shared.services[0].settings.own(end), 13)"),
        ("our own in 13 is the second's", OWN_END, "need(not forbidden(end) and not self.shared.services[-1].settings.own(end), 13)"),
        ("our own in 17 is of both", OWN_NEIGHBOUR, f"need(not {ANY.format('settings.own(neighbour)')}, 17)"),
        ("our own in 17 is the first's", OWN_NEIGHBOUR, "need(not self.shared.services[0].settings.own(neighbour), 17)"),
        ("our own in 17 is the second's", OWN_NEIGHBOUR, "need(not self.shared.services[-1].settings.own(neighbour), 17)"),
        ("our own in a new router list is of both", CHECKED, CHECKED.replace(
            "        due", "        need(not any(one.settings.own(router) for one in self.shared.services for router in routers), 1)\n        due")),
        ("6 by the locators of both", MATCHED, f"need({ANY.format('settings.locators.count((datagram[16:20], interface))')}, 6)"),
        ("6 by the locators of the first", MATCHED, MATCHED.replace("self.settings", "self.shared.services[0].settings")),
        ("6 by the locators of the second", MATCHED, MATCHED.replace("self.settings", "self.shared.services[-1].settings")),
        ("6 by an address and an interface of the other", MATCHED, MATCHED.replace(
            ", 6)", " or self.settings.own(datagram[16:20]) and " + OTHERS.format("interface in [at for _, at in one.settings.locators]") + ", 6)")),
        ("7 for a locator of the other", "need(not forbidden(outer_source), 7)",
         f"need(not forbidden(outer_source) and not {OTHERS.format('one.settings.own(outer_source)')}, 7)"),
        ("locators counted on through both", NUMBERED,
         "        locators = self.settings.locators + [one for each in self.shared.services if each is not self for one in each.settings.locators]\n"
         "        need(index < len(locators), 11)\n        return locators[index][0]\n"),
        ("prefixes of both for the inner source", "embeds = self.settings.isatap(source)", f"embeds = {ANY.format('settings.isatap(source)')}"),
        ("prefixes of both for the next hop", "need(self.settings.isatap(next_hop), 12)", f"need({ANY.format('settings.isatap(next_hop)')}, 12)"),
        ("routers of both admitted", LISTED, "return any(address == router for one in self.shared.services for router, _ in one.routers)"),
        ("routers of the first admitted", LISTED, LISTED.replace("self.routers", "self.shared.services[0].routers")),
        ("routers of the second admitted", LISTED, LISTED.replace("self.routers", "self.shared.services[-1].routers")),
        ("a locator of the other admitted as a router", LISTED, f"{LISTED} or {OTHERS.format('one.settings.own(address)')}"),
        ("a new router list for both", NEW_LIST, NEW_LIST + EACH + "one.routers = list(self.routers)\n"),
        ("a new router list empties the other's", NEW_LIST, NEW_LIST + EACH + "one.routers = one.routers if one is self else []\n"),
        ("a router in the other's list keeps its due time of there", DUE,
         "        due = {router: due for one in self.shared.services for router, due in one.routers}\n        due.update(self.routers)\n"),
        ("a router in the other's list is new an interval later", "due.get(router, self.latest)",
         f"due.get(router, self.latest + self.settings.interval * {OTHERS.format('one.listed(router)')})"),
        ("due times moved in both lists", SET_DUE, EACH + "one.routers = [(other, time if other == router else due) for other, due in one.routers]\n"),
        ("asked of both lists", "router, due = min(self.routers, key", "router, due = min([entry for one in self.shared.services for entry in one.routers], key"),
        ("asked of the first's list", "router, due = min(self.routers, key", "router, due = min(self.shared.services[0].routers, key"),
        ("Too Big from the first's reporting address", "too_big_message(self.settings.reporting, packet",
         "too_big_message(self.shared.services[0].settings.reporting, packet")):
    seeing_both(name, (old, new))

# ---- Identifications, collections and times of both

COUNTED = "        self.identification = (self.identification + 1) % 65536\n"
TAKEN = "        joined = self.collection.take(Piece(datagram, header, total), self.latest, memory)\n"
NEW_PIECE = "        new = Piece(datagram, header, total)\n        new.check()\n"
RAISED = "    def raise_time(self, time):\n        self.shared.raise_time(time)\n"
RAISED_BY = "    def raise_time(self, time):\n        if self is self.shared.services[{}]:\n            self.shared.raise_time(time)\n"
for name, old, new in (
        ("a wrapped packet moves both identifications", COUNTED, EACH + "one.identification = (one.identification + 1) % 65536\n"),
        ("a wrapped packet moves the first's identification", COUNTED,
         "        one = self.shared.services[0]\n        one.identification = (one.identification + 1) % 65536\n"),
        *[(f"{most} keys live in both together", TAKEN, NEW_PIECE + "        need(any(one.key == new.key for one in self.collection.live(self.latest)) or "
           f"sum(len(one.collection.live(self.latest)) for one in self.shared.services) < {most}, 28)\n" + TAKEN) for most in (8, 9, 15)],
        ("29 drops what the other collects", TAKEN, "        try:\n    " + TAKEN + "        except Refused as refused:\n            for one in self.shared.services:\n"
         "                one.collection.datagrams = [] if refused.number == 29 and one is not self else one.collection.datagrams\n            raise\n"),
        ("what is joined frees the other's place of its number", TAKEN, TAKEN + EACH + "one is self or one.collection.free(joined.place)\n"),
        ("keys without their destinations, through both", TAKEN, NEW_PIECE + "        need(not any((one.key[0], one.key[3]) == (new.key[0], new.key[3]) "
         "for each in self.shared.services if each is not self for one in each.collection.live(self.latest)), 29)\n" + TAKEN),
        ("the latest time not raised by the second", RAISED, RAISED_BY.format(0)),
        ("the latest time not raised by the first where there are two", RAISED, RAISED_BY.format(-1))):
    seeing_both(name, (old, new))
wrong("node", "services: one identification for both", "        self.identification = settings.identification\n",
      "        shared.__dict__.setdefault('next', settings.identification)\n", ("wrapped(packet, self.identification, whole", "wrapped(packet, self.shared.next, whole"),
      (COUNTED, "        self.shared.next = (self.shared.next + 1) % 65536\n"))
wrong("node", "services: one collection for both", "        self.collection = Collection()\n",
      "        self.collection = shared.__dict__.setdefault('collection', Collection())\n")
OWN_TIME = "        self.own = max(self.__dict__.get('own', 0), time)\n"
for name, old, new in (
        ("a latest time of its own for each", "        return self.shared.latest\n", "        return self.__dict__.get('own', 0)\n"),
        ("pieces by a latest time of their own service", TAKEN, TAKEN.replace("self.latest", "self.own")),
        ("due times by a latest time of their own service", "due <= self.latest, 22)", "due <= self.own, 22)")):
    wrong("node", "services: " + name, old, new, (RAISED, RAISED + OWN_TIME))

# ---- A service that the node has not

HEADS = {"receive": "(self, interface, time, memory, datagram)", "send": "(self, index, time, next_hop, output, packet)", "replace_routers": "(self, time, routers)",
         "ask": "(self, index, time, output)", "advertisement": "(self, time, packet)", "advertise": "(self, index, output, operator, asked)", "size": "(self, neighbour)"}


def absent(name, call, before="", time=None):
    """With a line before 11, or at another time."""
    head = f"    def {call}{HEADS[call]}:\n"
    given = "        self.refuse({})\n".format("" if call in ("advertise", "size") else "time")
    wrong("node", f"absent service: {name}", head + given, head + (f"        {before}\n" if before else "") + (given if time is None else f"        self.refuse({time})\n"))


for call in ("receive", "send", "replace_routers", "ask", "advertisement"):
    absent(f"time of {call} not counted", call, time="")
    absent(f"{call} goes back to an earlier time", call, "self.shared.latest = time")
    absent(f"time of {call} counted from the latest on", call, time="self.shared.latest + (time > 0)")
for call, number, test in (
        ("receive", 15, "need(len(memory) >= 16384, 15)"), ("receive", 2, "outer_header(datagram)"),
        ("receive", 3, "need(len(datagram) < 20 or checksum_right(datagram[:4 * (datagram[0] & 15)]), 3)"),
        ("receive", 7, "need(len(datagram) < 20 or not forbidden(datagram[12:16]), 7)"), ("receive", 6, "raise Refused(6)"),
        ("send", 8, "need(inner_length(packet) == len(packet), 8)"), ("send", 12, "need(next_hop[9:12] == b'\\0\\x5e\\xfe', 12)"),
        ("send", 13, "need(not forbidden(next_hop[12:]), 13)"), ("send", 15, "need(20 + len(packet) <= len(output), 15)"),
        ("replace_routers", 1, "need(len(routers) <= 16 and len(set(routers)) == len(routers) and not any(map(forbidden, routers)), 1)"),
        ("replace_routers", "1 for too many", "need(len(routers) <= 16, 1)"), ("ask", 15, "need(len(output) >= 48, 15)"), ("ask", 22, "raise Refused(22)"),
        ("advertisement", 8, "inner_length(packet)"), ("advertisement", 20, "need(len(packet) < 40 or packet[6:8] == b'\\x3a\\xff', 20)"),
        ("advertisement", 21, "raise Refused(21)"),
        ("advertise", 8, "inner_length(asked)"), ("advertise", 24, "len(asked) < 48 or check_solicitation(asked[:inner_length(asked)])"),
        ("advertise", 25, "need(len(asked) < 40 or asked[8:16] == LINK_LOCAL, 25)"),
        ("advertise", 26, "operator.check()"), ("advertise", 15, "need(len(output) >= 56, 15)")):
    absent(f"11 of {call} after {number}", call, test)
for name, old, new in (
        ("taken for the first", "Absent(self.shared)]\n", "Absent(self.shared)]\n        self.services[1] = self.services[0]\n"),
        ("is one of the first's settings", "Absent(self.shared)]\n", "Service(first, self.shared)]\n"),
        ("gives 6", "        raise Refused(11)\n", "        raise Refused(6)\n"), ("gives 1", "        raise Refused(11)\n", "        raise Refused(1)\n"),
        ("forgets all that is kept", "        raise Refused(11)\n", "        self.shared.record.clear()\n        raise Refused(11)\n"),
        ("gives part of the datagram", "        return b\"\"\n\n    def send", "        return datagram[20:]\n\n    def send"),
        ("has a size", "    def size(self, neighbour):\n        self.refuse()\n", "    def size(self, neighbour):\n        return 1500\n"),
        ("has no size", "    def size(self, neighbour):\n        self.refuse()\n", "    def size(self, neighbour):\n        return 0\n"),
        ("counts a second for what has no time", "    def refuse(self, time=0):\n",
         "    def refuse(self, time=None):\n        time = self.shared.latest + 1 if time is None else time\n")):
    wrong("node", "absent service: " + name, old, new)
for call in ("send", "ask", "advertise"):
    absent(f"output of {call} cleared", call, "output[:] = bytes(len(output))")
absent("memory cleared", "receive", "memory[:] = bytes(len(memory))")

# ---- The programs

PICKED = "service, memory = node.services[number], memories[number]"
for name, old, new in (
        ("one memory for both", PICKED, PICKED.replace("memories[number]", "memories[0]")),
        ("memories exchanged", PICKED, PICKED.replace("memories[number]", "memories[1 - number]") + "\n        if name == \"memory\":\n            memory = memories[number]"),
        ("the other's memory looked at", "return f\"memory {digest(memory)}\"", "return f\"memory {digest(memories[1 - number])}\""),
        ("of the second the memory of zeros at first", "    return lent(MEMORY), lent(MEMORY)\n", "    return lent(MEMORY), bytearray(MEMORY)\n"),
        ("of an absent service no memory", "return f\"memory {digest(memory)}\"",
         "return f\"memory {digest(memory if hasattr(service, 'settings') else b'')}\""),
        ("of an absent service the memory refused", "        return f\"memory {digest(memory)}\"\n",
         "        return f\"memory {digest(memory)}\" if hasattr(service, 'settings') else 'memory refuse 11'\n"),
        ("the service not looked at", "number = arguments.pop(0)\n", "number = arguments.pop(0) * 0\n"),
        ("the services exchanged", "number = arguments.pop(0)\n",
         "number = arguments.pop(0)\n        number = 1 - number if hasattr(node.services[1], 'settings') else number\n"),
        ("size of the first always", PICKED, PICKED + "\n        service = node.services[0] if name == \"size\" else service"),
        ("part of the first always", PICKED, PICKED + "\n        service = node.services[0] if name == \"part\" else service"),
        ("no service taken for one", "        if count not in (1, 2):\n            raise BadInput\n",
         "        if count > 2:\n            raise BadInput\n        count = max(1, count)\n"),
        ("three services taken for two", "        if count not in (1, 2):\n            raise BadInput\n",
         "        if count == 0:\n            raise BadInput\n        count = min(2, count)\n"),
        ("one service is bad input", "if count not in (1, 2):", "if count != 2:"), ("two services are bad input", "if count not in (1, 2):", "if count != 1:"),
        ("a service above 1 taken for the second", "        if service > 1:\n            raise BadInput\n        return service\n", "        return min(1, service)\n"),
        ("the lowest bit of the service alone read", "        if service > 1:\n            raise BadInput\n        return service\n", "        return service & 1\n"),
        ("a service of 2 taken for the first", "        if service > 1:\n            raise BadInput\n        return service\n",
         "        if service > 2:\n            raise BadInput\n        return service % 2\n"),
        ("settings of the services exchanged", "Node(*services)", "Node(*services[::-1])"),
        ("the second's settings read and left out", "Node(*services)", "Node(services[0])"),
        ("the first's settings for both", "Node(*services)", "Node(services[-1])"),
        ("the second's refused settings before bad input", "        services, calls = reader.services(), []\n",
         "        services, calls = reader.services(), []\n        services[-1].check()\n")):
    wrong("formats", "replay: " + name, old, new)
wrong("formats", "replay: refused settings of the second make a node of one", "        node, memories = Node(*services), lent_memories()\n    except BadInput:\n        yield",
      "        try:\n            node, memories = Node(*services), lent_memories()\n        except Refused:\n            node, memories = Node(services[0]), lent_memories()\n"
      "    except BadInput:\n        yield")
NUMBER = "number = arguments.pop(0)\n"
wrong("formats", "replay: a report names a service too", "(\"report\", \"ID\")", "(\"report\", \"SID\")",
      ("    if name != \"report\":\n", "    if name == \"report\":\n        arguments.pop(0)\n    else:\n"))
for call, forms in (("size", "SA"), ("memory", "S"), ("part", "SBD"), ("routers", "SIR"), ("advertisement", "SID")):
    wrong("formats", f"replay: {call} names no service", f"(\"{call}\", \"{forms}\")", f"(\"{call}\", \"{forms[1:]}\")",
          (NUMBER, f"number = 0 if name == \"{call}\" else arguments.pop(0)\n"))
for call, forms in (("receive", "SBIHD"), ("send", "SBINHD"), ("ask", "SBIH"), ("advertise", "SBHOD"), ("part", "SBD"), ("size", "SA")):
    wrong("formats", f"replay: service of {call} behind what follows it", f"(\"{call}\", \"{forms}\")", f"(\"{call}\", \"{forms[1]}S{forms[2:]}\")",
          (NUMBER, f"number = arguments.pop(1 if name == \"{call}\" else 0)\n"))
