"""Talks with the built program through pipes: sends a command, waits for its whole reply, and only then sends the next one.

    python3 tests/pipes.py PROGRAM

Each exchange has a time limit; a program that holds a reply back until more input arrives exceeds it. Prints a line for each case, as
`rt try --cases` does: `case=NAME output=expected status=N`, or what differs.
"""

import os
import select
import subprocess
import sys

from running import EMPTY_REPORT, SCRIPT, exit_status, report

SECONDS = 20

# a command, in the pieces in which it is sent, and its reply
TALK = [
    ([b"report\n"], b"status 0\n"),
    ([b"put .github/workflows/a.yml 0\n", b"\n"], b"ok 1\n"),
    ([b"report\n"], EMPTY_REPORT + b"status 1\n"),
    ([b"rep", b"ort\n"], EMPTY_REPORT + b"status 1\n"),
    ([b"put ../x 1\nx\n"], b"refused E1\n"),
    ([b"delete .github/workflows/a.yml\n"], b"ok 0\n"),
    ([b"report\nreport\n"], b"status 0\nstatus 0\n"),
    ([b"put .github/workflows/b.yml 1048577\n" + b"#" * 1_048_577, b"\n"], b"refused E3\n"),
]


def read_reply(program, size):
    """Reads this many bytes, or as many as arrive in time."""
    got = b""
    while len(got) < size:
        ready, _, _ = select.select([program.stdout], [], [], SECONDS)
        if not ready:
            break
        more = os.read(program.stdout.fileno(), size - len(got))
        if not more:
            break
        got += more
    return got


def is_silent(program):
    """Whether no more bytes arrive."""
    return not select.select([program.stdout], [], [], 0.05)[0]


def start(blocking):
    """Starts the program, with pipes whose ends are blocking for it or not, and returns it with the end of its input."""
    given, sending = os.pipe()
    taking, taken = os.pipe()
    for end in (given, taken):
        os.set_blocking(end, blocking)
    program = subprocess.Popen([sys.argv[1], *SCRIPT], stdin=given, stdout=taken, stderr=subprocess.PIPE, bufsize=0)
    os.close(given)
    os.close(taken)
    program.stdin, program.stdout = open(sending, "wb", buffering=0), open(taking, "rb", buffering=0)
    return program


def talk(name, ending, last, wanted, blocking=True):
    """Sends all commands, each after the reply to the one before, then a last piece of input, and compares."""
    program = start(blocking)
    wrong = []
    try:
        for pieces, reply in TALK:
            for piece in pieces:
                if not is_silent(program):
                    wrong.append(f"a reply came before the end of {pieces[0][:40]!r}")
                program.stdin.write(piece)
            got = read_reply(program, len(reply))
            if got != reply:
                wrong.append(f"the reply to {pieces[0][:40]!r} was {got!r}, and should be {reply!r}")
                break
        if ending:
            program.stdin.write(ending)
        program.stdin.close()
        rest = program.stdout.read()
        complaint = program.stderr.read()
        ended = program.wait(SECONDS)
        if (rest, complaint, ended) != (last, b"", wanted):
            wrong.append(f"at the end came {rest!r}, {complaint!r} and status {ended}")
    except BrokenPipeError:
        wrong.append(f"it stopped reading, with {program.stderr.read()!r}")
    finally:
        program.kill()
        program.wait()
    report(name, program.returncode, wrong)


def main():
    if len(sys.argv) != 2:
        print("pipes.py PROGRAM", file=sys.stderr)
        return 2
    talk("replies-before-the-end", b"", b"", 0)
    talk("replies-before-a-bad-command", b"repo\n", b"bad command\n", 2)
    talk("replies-through-non-blocking-pipes", b"", b"", 0, blocking=False)
    talk("a-bad-command-through-non-blocking-pipes", b"repo\n", b"bad command\n", 2, blocking=False)
    return exit_status()


if __name__ == "__main__":
    sys.exit(main())
