"""Digests of what a call leaves, as docs/REPLAY.md has them."""
from hashlib import blake2b

LONG = 64
KNOWN = {}                                                    # by another hash, which is quick to take


def fnv(data):
    """The 32-bit FNV-1a hash."""
    value = 2166136261
    for byte in data:
        value = (value ^ byte) * 16777619 & 0xffffffff
    return f"{value:08x}"


def digest(data):
    """The same outputs are digested again and again, and the whole memory, which seldom changes."""
    if len(data) < LONG:
        return fnv(data)
    known = blake2b(data).digest()
    if known not in KNOWN:
        KNOWN[known] = fnv(data)
    return KNOWN[known]
