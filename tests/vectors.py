#!/usr/bin/env python3
"""Writes the cases of the program `test_vectors`, crates/test_vectors/stdin, and the lines that it must print, crates/test_vectors/stdout.
The lines are computed from docs/RULES.md and the RFCs with struct and ipaddress alone."""
import sys
from pathlib import Path

sys.dont_write_bytecode = True

import vectors_advertisements as advertisements  # noqa: E402
import vectors_extensions as extensions  # noqa: E402
import vectors_routers as routers  # noqa: E402
import vectors_rules as rules  # noqa: E402
from vectors_cases import cases, lines  # noqa: E402


def main():
    for part in (rules.checksums, rules.outer_headers, rules.received, rules.sent, rules.addresses, rules.wrapped, rules.messages,
                 rules.path_sizes, routers.next_due, routers.replaced, routers.listed, routers.many_routers, routers.lifetimes,
                 advertisements.advertisements, advertisements.solicitations, rules.blocks_and_turns,
                 extensions.extensions):
        part()
    data, text = b"".join(cases), "\n".join(lines) + "\n"
    assert len(data) <= 131072, "the program reads 131,072 bytes"
    crate = Path(__file__).resolve().parent.parent / "crates" / "test_vectors"
    (crate / "stdin").write_bytes(data)
    (crate / "stdout").write_text(text)
    print(f"{len(cases)} cases, {len(data)} bytes")


main()
