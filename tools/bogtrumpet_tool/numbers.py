"""What each number means, who gives it, and what an operator does about it. The texts are those of the header, the orders those of R1.13."""
import textwrap

WIDTH = 100  # of an explanation's lines

# The calls, by the words of `replay` where it has them: their functions in C, and their numbers in the order in which they are asked. On a node
# 11 stands before all of them, for a service that is not there (R26.4).
CALLS = {
    "setup": ("new new_pair", (1,)),
    "routers": ("replace_routers", (1,)),
    "receive": ("receive", (15, 2, 3, 4, 6, 7, 30, 29, 28, 27, 8, 9, 10)),
    "send": ("send", (8, 11, 12, 13, 14, 23, 15)),
    "report": ("report", (16, 17, 18, 19)),
    "ask": ("ask", (11, 22, 15)),
    "advertisement": ("hear", (8, 20, 21)),
    "advertise": ("advertise", (8, 11, 24, 25, 26, 15)),
    "an outer header alone": ("read_outer", (2, 3, 4, 5)),
    "a datagram alone": ("unwrap", (2, 3, 4, 5, 8)),
    "wrapping alone": ("wrap", (23, 15)),
    "a Too Big message alone": ("too_big", (8, 15)),
    "a solicitation alone": ("solicitation", (15,)),
    "comparing": ("compare", (31, 15)),
}
ASKS_FOR_SERVICE = ("routers", "receive", "send", "ask", "advertisement", "advertise", "size")

# number: (text, rules, what it means, what to do)
NUMBERS = {
    0: ("not refused", "R1.17",
        "The call did what it was asked for.",
        "Nothing."),
    1: ("settings or a new router list break the rules, or two services share a locator address", "R4.1 R2.11 R2.13 R26.2",
        "There is no node, or the old router list stays.",
        "Go through R2.1 to R2.9: counts, a pair or router that stands twice, forbidden addresses, a router that is a locator, "
        "sizes, TTL, interval."),
    2: ("outer header malformed", "R4.2 R5.2",
        "No IPv4 header of version 4 with at least 5 words stands there whole, or its total length does not fit the bytes.",
        "See whether datagrams are handed over from their IPv4 header on and with all their bytes; else the path spoils them."),
    3: ("outer checksum wrong", "R4.3 R5.4",
        "The IPv4 header's checksum does not fit the header.",
        "A capture taken where the sender's card fills checksums in shows this of sent datagrams; of received ones, look for a "
        "path that changes headers."),
    4: ("protocol is not 41", "R4.4 R5.5",
        "The datagram is none of IPv6 in IPv4.",
        "Hand only protocol 41 to the tunnel end; ICMPv4 goes to the call for size reports."),
    5: ("a piece of a datagram", "R4.5 R5.6",
        "The rules without state judge one datagram by itself; a node collects pieces and does not give this.",
        "Receive by a node, which joins pieces."),
    6: ("destination and arrival interface match no locator", "R4.6 R5.7",
        "Nobody here has that address on that interface.",
        "Compare the destination and the interface number with the locators: the same address on another interface does not match."),
    7: ("outer source forbidden", "R4.7 R5.8 R3.1",
        "The IPv4 source is 0.0.0.0, of 127.0.0.0/8 or 224.0.0.0/4, or 255.255.255.255.",
        "Nothing at this end: it is forged, or the sender's address is not set. A filter on the link should not let it in."),
    8: ("inner packet malformed", "R4.8 R5.10 R7.2 R15.2 R22.2 R23.14",
        "No IPv6 packet stands there: under 40 bytes, not version 6, or shorter than its payload length says; of a sending, also longer.",
        "See whether the packet is handed over whole, from its IPv6 header on, and, to send it, without padding; else ask its sender."),
    9: ("inner source bad", "R4.9 R5.11 R23.14",
        "The IPv6 source is multicast, ::, ::1, or 96 zero bits and a forbidden IPv4 address.",
        "Nothing at this end: no packet comes from there. See who sends it by its IPv4 source."),
    10: ("outer source wrong for the inner source", "R4.10 R5.12 R23.14",
         "The IPv6 source is no ISATAP address that embeds the IPv4 source, and the IPv4 source is no router of the list.",
         "If the sender is to be trusted: list it as a router, or set the prefix that its address has. Else it is forged, or an "
         "address is translated on the way."),
    11: ("no locator of that number, or no such service", "R4.11 R7.3 R13.2 R22.3 R26.4",
         "The locator's number, from 0, is not below the count; or the node has one service and the second is named.",
         "Correct the number at the call."),
    12: ("next hop is no ISATAP address", "R4.12 R7.4 R6.1",
         "The next hop has no on-link prefix, or behind it not 00 or 02 and then 00 5E FE.",
         "Correct the route, or set its prefix: only fe80::/64 counts unasked."),
    13: ("tunnel end forbidden, or a locator's address", "R4.13 R7.5 R3.1",
         "The IPv4 address in the next hop is forbidden, or one of ours.",
         "Correct the route: the packet would go nowhere, or back to this node."),
    14: ("packet too big", "R4.14 R7.7 R8.1 R8.2",
         "The packet is longer than what passes to that tunnel end; the answer names the size that passes.",
         "Hand the message in the output, where one was written, to the packet's sender, which then sends less. If it never does, "
         "it does not get or not heed it."),
    15: ("output or memory too short", "R4.15 R7.9 R8.3 R13.4 R22.8 R23.2 R27.8",
         "What would be written does not fit; of receiving, the memory has under 16,384 bytes.",
         "Lend more: 9,216 bytes to send, 48 to ask, 504 to advertise, 16,384 of memory to receive, 6 for each run to compare."),
    16: ("no well-formed size report", "R4.16 R9.2",
         "The ICMPv4 message is no Fragmentation Needed with a whole quoted header and a right checksum.",
         "Nothing for other ICMP messages. See that messages are handed over from their type on, without the IPv4 header."),
    17: ("the quote is not of our sending", "R4.17 R9.4 R26.5",
         "The quoted datagram is not protocol 41 from one of the locators to a possible tunnel end.",
         "Nothing for reports about other traffic of this machine. If many come, somebody forges them, or an address is translated on the way."),
    18: ("reported size unusable", "R4.18 R9.8",
         "The size is 1 to 67; or it is 0 and the quoted datagram was at most 68 bytes long.",
         "Nothing at this end: find the router that sends such reports."),
    19: ("reported size not below the one in force", "R4.19 R9.9",
         "It is known already: a report never raises a size, and an equal one does not renew it.",
         "Nothing."),
    20: ("no valid advertisement", "R4.20 R15.3 R15.4",
         "It is no router advertisement by RFC 4861, 6.1.2: hop limit 255, link-local source, checksum, type, code, length, options.",
         "Hand only router advertisements to this call. A hop limit under 255 means that it was forwarded: somebody forges it."),
    21: ("advertiser not listed", "R4.21 R15.5",
         "The advertisement is valid, but its sender is no router of the list.",
         "List the router if it is one of yours; else somebody poses as a router."),
    22: ("no router due", "R4.22 R13.3",
         "No router is to be asked now.",
         "Nothing: ask again later. If it comes at all times, the router list is empty."),
    23: ("wrapped length above 65,535", "R4.23 R7.8",
         "With its IPv4 header the packet would be longer than a datagram can be; no node of accepted settings gives this.",
         "Wrap shorter packets."),
    24: ("no valid solicitation", "R4.24 R22.4 R22.5",
         "It is no router solicitation by RFC 4861, 6.1.1: hop limit 255, checksum, type, code, length, options, and none of them "
         "a link-layer address from ::.",
         "Hand only router solicitations to this call; else ask the sender."),
    25: ("the asker's address is not link-local ISATAP", "R4.25 R22.6",
         "The solicitation's source is not fe80::/64 with 00 or 02 and 00 5E FE behind it, so no tunnel leads there.",
         "Nothing, or correct the asker's address."),
    26: ("too many prefixes or routes, or a prefix length above 128", "R4.26 R22.7",
         "The operator's own advertisement has more than 8 prefixes or 8 routes, or a length that no prefix has.",
         "Correct the advertisement at this end."),
    27: ("a piece that waits for others, or is ignored", "R4.27 R23.8 R23.13",
         "A piece was taken and others are missing, or it was there already.",
         "Nothing: the last missing piece gets the datagram's answer. If it never comes within 30 s, pieces are lost; let the "
         "sender send shorter packets."),
    28: ("no place is free for a new datagram's piece", "R4.28 R23.11",
         "The pieces of 8 datagrams are collected already.",
         "Places are free again after 30 s. If it lasts, pieces are lost or forged: see who sends them, and let senders send shorter packets."),
    29: ("pieces overlap, or disagree about the end", "R4.29 R23.7 R23.9",
         "What was collected of that datagram is dropped.",
         "One datagram lost is chance: two with one identification were under way. Many are an attack, or a sender whose "
         "identifications come again within 30 s."),
    30: ("a piece's payload is empty, ends past 2,048 bytes, or before the last piece is no multiple of 8", "R4.30 R23.4",
         "The piece cannot be collected; nothing changes.",
         "Let senders send packets of at most 2,048 bytes that are not cut into such pieces: lower the MTU of their tunnel."),
    31: ("a recording malformed", "R4.31 R27.8",
         "One of two recordings that are compared, or both, is cut off or has bytes behind its last datagram.",
         "Make the recording anew, by `bogtrumpet-tool from-pcap --recording` from the capture."),
}
TEXTS = {number: row[0] for number, row in NUMBERS.items()}


def orders(number):
    """A line for each call that gives the number: its order, with the number in brackets."""
    for call, (functions, order) in CALLS.items():
        if number in order:
            names = ", ".join("bogtrumpet_" + name for name in functions.split())
            yield f"{call} ({names}): " + " ".join(f"[{one}]" if one == number else str(one) for one in order)
    if number == 11:
        yield "each of these before all others, where the node has no such service: " + ", ".join(ASKS_FOR_SERVICE)
    if number == 0:
        yield "every call"


def explained(number):
    """The lines about a number."""
    text, rules, means, do = NUMBERS[number]
    given = [f"given by {order}" for order in orders(number)]
    yield f"{number}: {text}"
    for part in (f"rules: {rules.replace(' ', ', ')} (docs/RULES.md)", *given, f"means: {means}", f"to do: {do}"):
        yield from textwrap.wrap(part, WIDTH, initial_indent="  ", subsequent_indent="    ", break_on_hyphens=False)
