"""The commands of the model.

    python3 tests/model run < INPUT               the lines that `replay` must print
    python3 tests/model program < INPUT           the lines that the program (R17) must print
    python3 tests/model recordings < INPUT        the lines that `recordings` must print
    python3 tests/model stored                    the list of calls that stands in crates/replay/stdin
    python3 tests/model stored-recordings         the input that stands in crates/recordings/stdin
    python3 tests/model double-faults             the calls with two faults that stand in tests/double_faults.txt
    python3 tests/model inputs DIR                the named set and the fixed batches, with their expected lines
    python3 tests/model generate SEED COUNT       a replay input of about COUNT calls
    python3 tests/model bad SEED                  a replay input that is bad
    python3 tests/model longest                   a good replay input of the greatest length
    python3 tests/model generate-program SEED     an input of the program (R17)
    python3 tests/model generate-recordings SEED  an input of `recordings`
    python3 tests/model coverage FILES..          how often each answer occurs in expected lines of `replay`
    python3 tests/model self-test                 the checked values (R18)
"""
import sys
from pathlib import Path

sys.dont_write_bytecode = True
sys.path[0] = str(Path(__file__).resolve().parent.parent)

from model import checked_values, double_faults, formats, generator, named, recordings, scenarios_recordings  # noqa: E402

read, write = sys.stdin.buffer.read, sys.stdout.buffer.write
COMMANDS = {
    "run": lambda: write(formats.text(formats.replay(read()))), "program": lambda: write(formats.text(formats.program(read()))),
    "recordings": lambda: write(formats.text(recordings.recordings(read()))),
    "stored": lambda: write(named.stored()), "stored-recordings": lambda: write(scenarios_recordings.stored()), "double-faults": lambda: write(double_faults.lines()),
    "inputs": named.write_inputs,
    "generate": lambda seed, count: write(generator.generate(int(seed), int(count))),
    "bad": lambda seed: write(generator.bad(int(seed))), "longest": lambda: write(generator.longest()),
    "generate-program": lambda seed: write(generator.program_input(int(seed))),
    "generate-recordings": lambda seed: write(scenarios_recordings.by_chance(int(seed))),
    "coverage": checked_values.coverage, "self-test": checked_values.self_test}


def main(command=None, *arguments):
    if command not in COMMANDS:
        sys.exit(__doc__)
    status = COMMANDS[command](*arguments)
    return status if command in ("coverage", "self-test") else 0


sys.exit(main(*sys.argv[1:]))
