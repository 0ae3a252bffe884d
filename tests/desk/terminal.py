#!/usr/bin/env python3
"""Runs a command at a terminal of its own, and types:

    terminal.py [WORDS KEYS]... -- COMMAND...

KEYS are typed once WORDS have appeared at the terminal, pair after pair; they may have escapes, such as \\x04 for Ctrl-D. What the terminal shows is
printed, and the command's status is the end's, as a shell gives it; a command that hasn't ended after LIMIT seconds is ended, with status 124.
"""
import os
import pty
import select
import signal
import sys
import time

# far above what any command here takes on a busy machine
LIMIT = 100


def shown_by(terminal, plan):
    """What the terminal shows until its command ends, and whether it ended before the time was over."""
    shown, seen, spent, now = b"", 0, 0, time.monotonic()
    while spent < LIMIT:
        ready = select.select([terminal], [], [], 1)[0]
        # a clock that leaps, as where a whole machine stood still, costs a second at most
        before, now = now, time.monotonic()
        spent += min(now - before, 1)
        if not ready:
            continue
        try:
            shown += os.read(terminal, 4096)
        except OSError:  # nobody has the terminal open any more
            return shown, True
        while plan and plan[0].encode() in shown[seen:]:
            seen = shown.index(plan[0].encode(), seen) + len(plan[0])
            os.write(terminal, plan[1].encode().decode("unicode_escape").encode())
            plan = plan[2:]
    return shown, False


def main():
    at = sys.argv.index("--")
    child, terminal = pty.fork()
    if child == 0:
        os.execvp(sys.argv[at + 1], sys.argv[at + 1:])
    shown, ended = shown_by(terminal, sys.argv[1:at])
    if not ended:
        print(f"terminal.py: no end after {LIMIT} seconds", file=sys.stderr)
        os.kill(child, signal.SIGKILL)
    status = os.waitstatus_to_exitcode(os.waitpid(child, 0)[1])
    sys.stdout.buffer.write(shown)
    sys.stdout.flush()
    sys.exit(124 if not ended else status if status >= 0 else 128 - status)


main()
