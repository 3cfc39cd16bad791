"""inputs FOLDER: writes inputs of `replay` of about a mebibyte, a file for each kind of calls, built as tests/model builds them."""
import random
import sys
from pathlib import Path

sys.dont_write_bytecode = True
sys.path.insert(0, str(Path(__file__).resolve().parent.parent.parent / "tests"))

from model import generator  # noqa: E402
from model.builders import advertisement, datagram, operator_prefix, operator_route, packet, piece, report, solicitation  # noqa: E402
from model.formats import REPLAY_LIMIT, encode_call, encode_services  # noqa: E402
from model.octets import link_local  # noqa: E402
from model.rules import Advertisement, Settings  # noqa: E402

OWN, NEIGHBOUR = bytes((10, 0, 0, 1)), bytes((10, 0, 0, 2))
ROUTERS = [bytes((192, 0, 2, last)) for last in range(1, 17)]
SETTINGS = Settings([(OWN, 7)], [bytes.fromhex("20010db800000000")], ROUTERS, interval=1)
ROOM = 16384


def payload(length):
    return bytes(place * 7 % 256 for place in range(length))


def neighbour(turn):
    return bytes((10, 1, turn // 250 % 256, 1 + turn % 250))


def inner(length, source=NEIGHBOUR, destination=OWN):
    return packet(link_local(source), link_local(destination), payload(length - 40))


def sent(length, room):
    return lambda turn: [("send", (0, 0, turn, link_local(neighbour(turn % 40)), room, inner(length, OWN, NEIGHBOUR)))]


def received(length):
    data = datagram(inner(length), NEIGHBOUR, OWN)
    return lambda turn: [("receive", (0, 7, turn, ROOM, data))]


def collected(turn):
    """Two pieces, of which the second completes the datagram."""
    whole, number = inner(1480), (turn % 65536).to_bytes(2, "big")
    pieces = [piece(part, start, more, NEIGHBOUR, OWN, identification=number) for part, start, more in ((whole[:744], 0, 1), (whole[744:], 744, 0))]
    return [("receive", (0, 7, turn, ROOM, data)) for data in pieces]


def reported(turn):
    """Each neighbour's sizes fall, so that each report is accepted until the last."""
    return [("report", (turn // 64, report(1400 - turn // 64 % 1000, OWN, neighbour(turn % 64))))]


def sized(turn):
    return [("size", (0, neighbour(turn % 80)))]


def sized_behind_reports(turn):
    return (reported(turn) if turn < 64 else []) + sized(turn)


def asked(turn):
    return [("ask", (0, 0, turn, 100))]


def heard(turn):
    return [("advertisement", (0, turn, advertisement(link_local(ROUTERS[turn % 16]), link_local(OWN), 1800)))]


OPERATOR = Advertisement(0xc0, 1800, [operator_prefix()] * 2, [operator_route()] * 2)


def advertised(turn):
    return [("advertise", (0, 0, 300, OPERATOR, solicitation(link_local(neighbour(turn)), link_local(OWN))))]


def parted(turn):
    return [("part", (0, 7, datagram(inner(88), NEIGHBOUR, OWN)))]


def listed(turn):
    return [("routers", (0, turn, ROUTERS[turn % 8:turn % 8 + 8]))]


MIXED = [sent(1480, 1500), received(1480), sized, reported, sent(88, 1500), received(88), asked, heard, advertised, collected, parted, sized, listed]


def mixed(turn):
    return MIXED[turn % len(MIXED)](turn)


KINDS = {"send 1,480": sent(1480, 1500), "send 88": sent(88, 108), "send 88, room 1,500": sent(88, 1500), "receive 1,480": received(1480),
         "receive 88": received(88), "receive pieces": collected, "report": reported, "size": sized, "size, 64 rows": sized_behind_reports,
         "ask": asked, "advertisement": heard, "advertise": advertised, "part": parted, "routers": listed, "mixed": mixed}


def filled(kind):
    data, turn = bytearray(encode_services([SETTINGS])), 0
    while True:
        calls = b"".join(encode_call(name, arguments) for name, arguments in kind(turn))
        if len(data) + len(calls) > REPLAY_LIMIT:
            return bytes(data)
        data += calls
        turn += 1


def main(folder):
    random.seed(1)
    for name, kind in KINDS.items():
        (Path(folder) / name).write_bytes(filled(kind))
    (Path(folder) / "generated").write_bytes(generator.generate(1, 1 << 20, REPLAY_LIMIT - 150000))


main(*sys.argv[1:])
