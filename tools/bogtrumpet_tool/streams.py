"""Files and standard streams: what cannot be read or written is told as what else is wrong."""
import os
import sys

from .wrong import Wrong, counted


def opened(file):
    try:
        if file == "-" and sys.stdin is None:
            raise Wrong("standard input is closed")
        return sys.stdin.buffer if file == "-" else open(file, "rb")
    except (OSError, ValueError) as error:
        raise about(file, told(error)) from None


def content(file, most=64 << 20):
    """All bytes of a file, `-` being standard input."""
    try:
        with opened(file) as stream:
            data = stream.read(most + 1)
    except OSError as error:
        raise about(file, told(error)) from None
    if len(data) > most:
        raise about(file, f"more than {counted(most, 'byte')}")
    return data


def put(data, file="-"):
    """Writes all of the output at once, to a file or standard output."""
    if file == "-" and sys.stdout is None:
        raise Wrong("standard output is closed")
    try:
        if file == "-":
            sys.stdout.buffer.write(data)
            sys.stdout.buffer.flush()
        else:
            with open(file, "wb") as stream:
                stream.write(data)
    except (OSError, ValueError) as error:
        if file == "-":  # what is left in the buffer is not tried again at the end
            os.dup2(os.open(os.devnull, os.O_WRONLY), 1)
        raise about("standard output" if file == "-" else file, told(error)) from None


def put_lines(lines):
    put("".join(line + "\n" for line in lines).encode())


def warn(file, text):
    print(f"{file}: warning: {text}", file=sys.stderr)


def about(file, wrong):
    """The same, said of a file."""
    return Wrong(f"{file}: {wrong}")


def told(error):
    """What the system, or Python, says of a file that it cannot read or write."""
    return getattr(error, "strerror", None) or error
