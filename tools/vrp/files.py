"""Files that are read with clear faults, and written whole or not at all."""
import os
import signal
import sys
import tempfile


class InputFault(Exception):
    """What is wrong with an input: its file, the line (0 where no one line is at fault) and words."""

    def __init__(self, path, line, words):
        super().__init__(f"{path}: line {line}: {words}" if line else f"{path}: {words}")


def read_text(path, errors="strict"):
    """The text of a file; `errors` says what bytes come to that aren't UTF-8, as in `open`."""
    try:
        with open(path, encoding="utf-8", errors=errors, newline="") as file:
            return file.read()
    except (OSError, UnicodeDecodeError) as fault:
        raise InputFault(path, 0, f"cannot be read ({getattr(fault, 'strerror', None) or 'not text'})") from None


def read_digits(text, most):
    """The number that a text of digits tells, or None where it is another text, or above a bound."""
    return int(text) if text.isascii() and text.isdigit() and len(text) <= 20 and int(text) <= most else None


def require_target(path):
    """Refuses a path where no file can be written; for use before a long run."""
    if path == "-":
        return
    target = os.path.realpath(path)
    if os.path.exists(target) and not os.path.isfile(target):
        raise InputFault(path, 0, "cannot be written (it is no plain file)")
    if not os.path.isdir(os.path.dirname(target)):
        raise InputFault(path, 0, "cannot be written (its folder isn't there)")


def write_whole(path, write):
    """Lets `write` fill a file of a temporary name in the same folder, and then gives it its name."""
    require_target(path)
    target, temporary = os.path.realpath(path), None
    try:
        handle, temporary = tempfile.mkstemp(prefix=".part-", suffix=os.path.splitext(target)[1], dir=os.path.dirname(target))
        os.close(handle)
        write(temporary)
        os.chmod(temporary, 0o666 & ~file_mask())
        os.replace(temporary, target)
    except OSError as fault:
        raise InputFault(path, 0, f"cannot be written ({fault.strerror})") from None
    finally:
        if temporary and os.path.exists(temporary):
            os.remove(temporary)


def file_mask():
    """The permissions that new files don't get."""
    mask = os.umask(0)
    os.umask(mask)
    return mask


def write_text(path, text):
    """Writes a text whole; `-` is standard output."""
    if path == "-":
        write_out(text.encode())
        return

    def write(temporary):
        with open(temporary, "wb") as file:
            file.write(text.encode())

    write_whole(path, write)


def write_out(data):
    """Writes to standard output."""
    try:
        sys.stdout.buffer.write(data)
        sys.stdout.buffer.flush()
    except OSError as fault:
        os.dup2(os.open(os.devnull, os.O_WRONLY), sys.stdout.fileno())
        raise InputFault("standard output", 0, f"cannot be written ({fault.strerror})") from None


def run_tool(main):
    """Calls a tool's main function; a fault of its input is one line on standard error and status 1.

    A signal to end is taken as an interrupt, so that programs that the tool waits for end, and temporary files go.
    """
    signal.signal(signal.SIGTERM, signal.default_int_handler)
    try:
        main()
    except InputFault as fault:
        sys.exit(f"{os.path.basename(sys.argv[0])}: {fault}")
    except KeyboardInterrupt:
        sys.exit(f"{os.path.basename(sys.argv[0])}: interrupted")
