#!/usr/bin/env python3
"""Types a line and a tab into a shell, and prints the words of the line then, each in angle brackets:

    tests/complete.py SETUP LINE SHELL..

SETUP is a line that the shell runs first.
"""
import os
import pty
import re
import select
import sys
import time

setup, line, *shell = sys.argv[1:]
child, terminal = pty.fork()
if child == 0:
    os.environ.update(TERM="dumb", PS1="ready> ")
    os.execvp(shell[0], shell)


def found(pattern, seconds=20):
    """Waits until the shell has written what a pattern matches, and returns its group."""
    seen, end = "", time.monotonic() + seconds
    while time.monotonic() < end:
        if match := re.search(pattern, seen):
            return match[1]
        if select.select([terminal], [], [], 0.1)[0]:
            try:
                seen += os.read(terminal, 4096).decode(errors="replace")
            except OSError:
                break
    return f"{shell[0]} wrote {seen!r}"


found("(ready> )")
os.write(terminal, f"{setup}; echo set''up\n".encode())
found(r"setup\r\n[^\n]*(ready> )")
# The keys after the tab wait for the completion. The first one goes to the start of the line.
os.write(terminal, f"{line}\t\x01printf '<%s>' \x05; echo do''ne\n".encode())
print(found(r"\n[^\n]*?((?:<[^<>]*>)+)done"))
os.close(terminal)
os.waitpid(child, 0)
