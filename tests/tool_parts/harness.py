"""Running the tool, in this process where many runs are needed, and counting what is checked."""
import functools
import io
import subprocess
import sys
import traceback
from pathlib import Path

ROOT = Path(__file__).resolve().parents[2]
TOOL = ROOT / "tools" / "bogtrumpet-tool"
BUILT = ROOT / "target" / "bin"
sys.path.insert(1, str(ROOT / "tools"))

from bogtrumpet_tool import main  # noqa: E402
from model import named  # noqa: E402

main.arguments = functools.lru_cache(None)(main.arguments)  # made once for all runs of this process
checked, failures = 0, []


@functools.lru_cache(None)
def gate_inputs():
    """Name, program and bytes of all that tests/compare runs."""
    return list(named.gate_inputs())


def check(what, right, detail=""):
    """Counts one fact; a wrong one is told at once."""
    global checked
    checked += 1
    if not right:
        failures.append(what)
        print(f"{what}: wrong{': ' if detail != '' else ''}{str(detail)[:600]}", flush=True)


def same(what, given, expected):
    right = given == expected
    check(what, right, "" if right else f"expected {str(expected)[:250]!r}, given {str(given)[:250]!r}")


def run(*words, stdin=b""):
    """Status, standard output and standard error of the tool's main function. What it raises is a traceback for an operator, and fails."""
    streams = sys.stdin, sys.stdout, sys.stderr
    out, err = io.BytesIO(), io.BytesIO()
    sys.stdin = io.TextIOWrapper(io.BufferedReader(io.BytesIO(stdin)))
    sys.stdout, sys.stderr = io.TextIOWrapper(out), io.TextIOWrapper(err, errors="backslashreplace")
    raised = None
    try:
        status = main.main(list(map(str, words)))
    except SystemExit as end:
        status = end.code
    except BaseException:
        status, raised = "raised", traceback.format_exc()
    for stream in (sys.stdout, sys.stderr):
        stream.flush()
    result = status, out.getvalue(), err.getvalue().decode(errors="replace")
    sys.stdin, sys.stdout, sys.stderr = streams
    if raised:
        check(f"no traceback of {' '.join(map(str, words))}", False, raised)
    return result


def started(*words, stdin=b"", **more):
    """The same of the command itself."""
    done = subprocess.run([str(TOOL), *map(str, words)], input=stdin, stdout=subprocess.PIPE, stderr=subprocess.PIPE, **more)
    return done.returncode, done.stdout, done.stderr.decode(errors="replace")


def refused(what, result, *parts):
    """Status 2, nothing on standard output, one line that has these parts on standard error."""
    status, out, err = result
    lines = err.strip("\n").split("\n")
    right = status == 2 and out == b"" and len(lines) == 1 and lines[0] and "Traceback" not in err and all(part in err for part in parts)
    check(what, right, f"status {status}, {len(out)} bytes, standard error {err!r}; asked for {parts}")


def given(what, result):
    """What a run that is not refused prints, with nothing on standard error."""
    status, out, err = result
    check(what, status == 0 and err == "", f"status {status}, standard error {err!r}")
    return out


def program(name, data):
    """What a built program prints for an input."""
    done = subprocess.run([str(BUILT / name)], input=data, stdout=subprocess.PIPE, stderr=subprocess.PIPE)
    check(f"{name} ends well", done.returncode == 0 and done.stderr == b"", done.stderr)
    return done.stdout.decode()
