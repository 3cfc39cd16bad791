"""Wrong checksums, addresses and settings."""
from .edits import wrong

# ---- Checksums and addresses

wrong("octets", "checksum: second carry forgotten", "    while total > 0xffff:\n        total = (total & 0xffff) + (total >> 16)\n",
      "    total = (total & 0xffff) + (total >> 16) & 0xffff\n")
wrong("octets", "checksum: carry forgotten", "total = (total & 0xffff) + (total >> 16)", "total = total & 0xffff")
wrong("octets", "checksum: last odd byte is the low half", "data = bytes(data) + bytes(len(data) % 2)",
      "data = bytes(data) if len(data) % 2 == 0 else bytes(data[:-1]) + b'\\0' + bytes(data[-1:])")
wrong("octets", "checksum: last odd byte passed over", "data = bytes(data) + bytes(len(data) % 2)",
      "data = bytes(data[:len(data) // 2 * 2])")
wrong("octets", "checksum: little-endian words", "256 * sum(data[0::2]) + sum(data[1::2])", "sum(data[0::2]) + 256 * sum(data[1::2])")
wrong("octets", "checksum: right by its field's value, so that FFFF for 0 is refused", "return checksum_sum(data) == 0xffff",
      "return checksum_sum(data) == 0xffff and bytes(data[10:12]) != b'\\xff\\xff'")
wrong("octets", "checksum: every one right", "return checksum_sum(data) == 0xffff", "return True")
wrong("octets", "checksum: 0 written as FFFF", "return u16(0xffff - checksum_sum(data))",
      "return u16((0xffff - checksum_sum(data)) or 0xffff)")
wrong("octets", "checksum: the sum written, not its complement", "return u16(0xffff - checksum_sum(data))",
      "return u16(checksum_sum(data))")
wrong("octets", "pseudo header without the length", "source + destination + u32(length)", "source + destination + u32(0)")
wrong("octets", "pseudo header with protocol 41", "bytes([0, 0, 0, 58])", "bytes([0, 0, 0, 41])")
wrong("octets", "pseudo header without the addresses", "return source + destination + u32(length)", "return u32(length)")
wrong("octets", "forbidden: not 0.0.0.0", "address in (bytes(4), b\"\\xff\" * 4)", "address == b\"\\xff\" * 4")
wrong("octets", "forbidden: all of 0.0.0.0/8", "address[0] == 127", "address[0] in (0, 127)")
wrong("octets", "forbidden: not 255.255.255.255", "address in (bytes(4), b\"\\xff\" * 4)", "address == bytes(4)")
wrong("octets", "forbidden: all of 255.0.0.0/8", "address[0] == 127", "address[0] in (127, 255)")
wrong("octets", "forbidden: 127.0.0.1 alone", "address[0] == 127", "address == bytes((127, 0, 0, 1))")
wrong("octets", "forbidden: not 127.0.0.0/8", " or address[0] == 127", "")
wrong("octets", "forbidden: 224.0.0.0/8 alone", "224 <= address[0] <= 239", "address[0] == 224")
wrong("octets", "forbidden: not 239.0.0.0/8", "224 <= address[0] <= 239", "224 <= address[0] <= 238")
wrong("octets", "forbidden: 240.0.0.0/4 too", "224 <= address[0] <= 239", "224 <= address[0]")
wrong("octets", "forbidden: 223.0.0.0/8 too", "224 <= address[0] <= 239", "223 <= address[0] <= 239")
wrong("octets", "forbidden: 240.0.0.0/8 too", "224 <= address[0] <= 239", "224 <= address[0] <= 240")
wrong("octets", "forbidden: 126.0.0.0/8 too", "address[0] == 127", "address[0] in (126, 127)")
wrong("octets", "forbidden: 128.0.0.0/8 too", "address[0] == 127", "address[0] in (127, 128)")
wrong("octets", "forbidden: 10.0.0.0/8 too", "address[0] == 127", "address[0] in (10, 127)")
wrong("octets", "addresses that we form have 02", '"00005efe", address)', '"02005efe", address)')

# ---- Settings

for name, old, new in (
        ("no locator taken", "need(1 <= len(self.locators) <= 8, 1)",
         "need(len(self.locators) <= 8, 1); self.locators = self.locators or [(b'\\1' * 4, 0)]"),
        ("nine locators taken", "need(1 <= len(self.locators) <= 8, 1)", "need(1 <= len(self.locators) <= 9, 1)"),
        ("eight locators refused", "need(1 <= len(self.locators) <= 8, 1)", "need(1 <= len(self.locators) <= 7, 1)"),
        ("a locator twice taken", "        need(len(set(self.locators)) == len(self.locators), 1)\n", ""),
        ("one address on two interfaces refused", "need(len(set(self.locators)) == len(self.locators), 1)",
         "need(len({locator for locator, _ in self.locators}) == len(self.locators), 1)"),
        ("one interface with two addresses refused", "need(len(set(self.locators)) == len(self.locators), 1)",
         "need(len({interface for _, interface in self.locators}) == len(self.locators), 1)"),
        ("a forbidden locator taken", "        need(not any(forbidden(locator) for locator, _ in self.locators), 1)\n", ""),
        ("only the first locator asked to be allowed", "forbidden(locator) for locator, _ in self.locators)",
         "forbidden(locator) for locator, _ in self.locators[:1])"),
        ("nine prefixes taken", "need(len(self.prefixes) <= 8, 1)", "need(len(self.prefixes) <= 9, 1)"),
        ("eight prefixes refused", "need(len(self.prefixes) <= 8, 1)", "need(len(self.prefixes) <= 7, 1)"),
        ("fe80::/64 among the prefixes refused", "need(len(self.prefixes) <= 8, 1)",
         "need(len(self.prefixes) <= 8 and LINK_LOCAL not in self.prefixes, 1)"),
        ("a prefix twice refused", "need(len(self.prefixes) <= 8, 1)",
         "need(len(self.prefixes) <= 8 and len(set(self.prefixes)) == len(self.prefixes), 1)"),
        ("a multicast prefix refused", "need(len(self.prefixes) <= 8, 1)",
         "need(len(self.prefixes) <= 8 and not any(prefix[0] == 255 for prefix in self.prefixes), 1)"),
        ("a prefix of zeros refused", "need(len(self.prefixes) <= 8, 1)",
         "need(len(self.prefixes) <= 8 and bytes(8) not in self.prefixes, 1)"),
        ("link 575 taken", "need(576 <= self.link <= 9216, 1)", "need(575 <= self.link <= 9216, 1)"),
        ("link 576 refused", "need(576 <= self.link <= 9216, 1)", "need(577 <= self.link <= 9216, 1)"),
        ("link 9217 taken", "need(576 <= self.link <= 9216, 1)", "need(576 <= self.link <= 9217, 1)"),
        ("link 9216 refused", "need(576 <= self.link <= 9216, 1)", "need(576 <= self.link <= 9215, 1)"),
        ("link below 1,280 refused", "need(576 <= self.link <= 9216, 1)", "need(1280 <= self.link <= 9216, 1)"),
        ("TTL 0 taken", "need(1 <= self.ttl <= 255, 1)", "need(self.ttl <= 255, 1)"),
        ("TTL 1 refused", "need(1 <= self.ttl <= 255, 1)", "need(2 <= self.ttl <= 255, 1)"),
        ("TTL 255 refused", "need(1 <= self.ttl <= 255, 1)", "need(1 <= self.ttl <= 254, 1)"),
        ("interval 0 taken", "need(1 <= self.interval <= 3600, 1)", "need(self.interval <= 3600, 1)"),
        ("interval 1 refused", "need(1 <= self.interval <= 3600, 1)", "need(2 <= self.interval <= 3600, 1)"),
        ("interval 3601 taken", "need(1 <= self.interval <= 3600, 1)", "need(1 <= self.interval <= 3601, 1)"),
        ("interval 3600 refused", "need(1 <= self.interval <= 3600, 1)", "need(1 <= self.interval <= 3599, 1)"),
        ("a multicast reporting address taken", "        need(self.reporting[0] != 0xff, 1)\n", ""),
        (":: as the reporting address taken", "        need(self.reporting != UNSPECIFIED, 1)\n", ""),
        ("::1 as the reporting address refused", "need(self.reporting != UNSPECIFIED, 1)", "need(self.reporting[:15] != bytes(15), 1)"),
        ("a reporting address that is no ISATAP address refused", "need(self.reporting != UNSPECIFIED, 1)",
         "need(self.reporting[9:12] == b'\\0\\x5e\\xfe', 1)"),
        ("default reporting address of the last locator", "link_local(self.locators[0][0])", "link_local(self.locators[-1][0])"),
        ("identification 0 refused", "need(1 <= self.ttl <= 255, 1)", "need(1 <= self.ttl <= 255 and self.identification > 0, 1)"),
        ("17 routers taken", "need(len(routers) <= 16, 1)", "need(len(routers) <= 17, 1)"),
        ("16 routers refused", "need(len(routers) <= 16, 1)", "need(len(routers) <= 15, 1)"),
        ("no router refused", "need(len(routers) <= 16, 1)", "need(0 < len(routers) <= 16, 1)"),
        ("a router twice taken", "        need(len(set(routers)) == len(routers), 1)\n", ""),
        ("a router twice refused only side by side", "need(len(set(routers)) == len(routers), 1)",
         "need(all(one != other for one, other in zip(routers, routers[1:])), 1)"),
        ("a forbidden router taken", "        need(not any(forbidden(router) for router in routers), 1)\n", ""),
        ("a router of our own taken", "        need(not any(self.own(router) for router in routers), 1)\n", ""),
        ("a router that is a later locator taken", "need(not any(self.own(router) for router in routers), 1)",
         "need(self.locators[0][0] not in routers, 1)"),
        ("own: the first locator alone", "return address in [locator for locator, _ in self.locators]",
         "return address == self.locators[0][0]"),
        ("on link: fe80::/64 only if it is among the prefixes", "return prefix == LINK_LOCAL or prefix in self.prefixes",
         "return prefix in self.prefixes"),
        ("on link: fe80::/64 alone", "return prefix == LINK_LOCAL or prefix in self.prefixes", "return prefix == LINK_LOCAL"),
        ("on link: the first prefix alone", "prefix in self.prefixes\n", "prefix in self.prefixes[:1]\n"),
        ("on link: all but the last of eight prefixes", "prefix in self.prefixes\n", "prefix in self.prefixes[:7]\n"),
        ("on link: fe80::/10", "return prefix == LINK_LOCAL or", "return prefix[0] == 0xfe and prefix[1] >> 6 == 2 or"),
        ("on link: prefixes of 56 bits", "prefix in self.prefixes\n", "prefix[:7] in [one[:7] for one in self.prefixes]\n"),
        ("on link: every prefix", "return prefix == LINK_LOCAL or prefix in self.prefixes", "return True"),
        ("ISATAP: 00 alone", "address[8] in (0, 2)", "address[8] == 0"),
        ("ISATAP: 02 alone", "address[8] in (0, 2)", "address[8] == 2"),
        ("ISATAP: 01 too", "address[8] in (0, 2)", "address[8] in (0, 1, 2)"),
        ("ISATAP: 03 too", "address[8] in (0, 2)", "address[8] in (0, 2, 3)"),
        ("ISATAP: any first byte without the universal bit's neighbours", "address[8] in (0, 2)", "address[8] & 1 == 0"),
        ("ISATAP: second byte not asked", "address[9:12] == b\"\\0\\x5e\\xfe\"", "address[10:12] == b\"\\x5e\\xfe\""),
        ("ISATAP: third byte not asked", "address[9:12] == b\"\\0\\x5e\\xfe\"", "address[9] == 0 and address[11] == 0xfe"),
        ("ISATAP: fourth byte not asked", "address[9:12] == b\"\\0\\x5e\\xfe\"", "address[9:11] == b\"\\0\\x5e\"")):
    wrong("rules", "settings: " + name if not name.startswith(("ISATAP", "on link", "own")) else name, old, new)
