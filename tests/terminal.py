"""A terminal of some width: what a program writes there, and how it looks."""
import fcntl
import os
import re
import struct
import subprocess
import tempfile
import termios

SIGNS = re.compile("\x1b\\[K|\x1b\\[\\?7[lh]|.", re.DOTALL)


class Screen:
    """What stands on a terminal behind what was written there. It knows the few signs that the program writes."""

    def __init__(self, width):
        self.width, self.lines, self.at, self.goes_on = width, [""], 0, True

    def write(self, text):
        for sign in SIGNS.findall(text):
            if sign == "\x1b[K":
                self.lines[-1] = self.lines[-1][: min(self.at, self.width - 1)]
            elif sign in ("\x1b[?7l", "\x1b[?7h"):
                self.goes_on = sign[-1] == "h"
            elif sign == "\r":
                self.at = 0
            elif sign == "\n":
                self.lines.append("")
            elif sign >= " ":
                self.put(sign)
            else:
                raise ValueError(f"{sign!r} is written to a terminal")
        return self

    def put(self, sign):
        if self.at == self.width and self.goes_on:
            self.lines.append("")
            self.at = 0
        at = min(self.at, self.width - 1)
        self.lines[-1] = self.lines[-1][:at].ljust(at) + sign + self.lines[-1][at + 1 :]
        self.at = at + 1


def run(words, width, streams=("stderr",), seconds=120, typed=b"", **how):
    """Runs a program of which these standard streams are a terminal, and no other one, where this is typed. Answers its status,
    what it printed on standard output where that is none, and what it wrote to the terminal."""
    ours, theirs = os.openpty()
    fcntl.ioctl(theirs, termios.TIOCSWINSZ, struct.pack("HHHH", 24, width, 0, 0))
    # (no pipe: it would be full where nobody reads it meanwhile)
    printed = tempfile.TemporaryFile()
    given = {"stdin": subprocess.DEVNULL, "stdout": printed, "stderr": subprocess.PIPE} | how | dict.fromkeys(streams, theirs)
    try:
        ran = subprocess.Popen(words, start_new_session=True, **given)
    finally:
        os.close(theirs)
    os.write(ours, typed)
    said = b""
    try:
        while piece := os.read(ours, 1 << 16):
            said += piece
    except OSError:  # nobody has the terminal open any more
        pass
    os.close(ours)
    ran.communicate(timeout=seconds)
    with printed:
        printed.seek(0)
        return ran.returncode, printed.read(), said.decode(errors="replace")
