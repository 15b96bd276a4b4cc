"""python3 tests/lib/terminal.py ERRORS PROGRAM WORDS..: runs the program with a terminal for standard error.

The program's input is this script's. It comes byte by byte until the terminal shows something, and then the rest at once. What
the program writes to the terminal goes to the file ERRORS. This script ends with the program's status.
"""

import os
import pty
import select
import subprocess
import sys


def feed(program, terminal, text):
    """Writes the input to the program, which may end before it has read all."""
    try:
        for at in range(len(text)):
            program.stdin.write(text[at : at + 1])
            program.stdin.flush()
            if select.select([terminal], [], [], 0.2)[0]:
                program.stdin.write(text[at + 1 :])
                break
        program.stdin.close()
    except BrokenPipeError:
        pass


def shown(terminal):
    """What is written to the terminal, until nobody has it open."""
    text = b""
    while True:
        try:
            more = os.read(terminal, 65536)
        except OSError:
            return text
        if not more:
            return text
        text += more


terminal, end = pty.openpty()
with subprocess.Popen(sys.argv[2:], stdin=subprocess.PIPE, stderr=end) as program:
    os.close(end)
    feed(program, terminal, sys.stdin.buffer.read())
    text = shown(terminal)
with open(sys.argv[1], "wb") as errors:
    errors.write(text.replace(b"\r\n", b"\n"))
sys.exit(program.returncode)
