"""Runs the built program on input that is cut, arrives byte by byte, fails or doesn't end, and on output that accepts only so many bytes.

    python3 tests/streams.py PROGRAM

Expected values are the worked examples of the linter's description, never what the program printed before. Input whose reads matter comes
through a pipe in packet mode, from which each read gets what one write put in. Prints a line for each case, like tests/program.py.
"""

import fcntl
import os
import sys
import termios
import threading
import tty

from running import CALLED, CALLER, MISSING_INPUT, REPORT, SCRIPT, WORKFLOWS, differences_of, each, line, put, report, run_parts, show

NO = b""
READS = 1_048_576
PIPE_ROOM = 1 << 20
# after how many seconds a run with a million reads has hung, on a machine that is busy
WAITED = 600

# a script with calls: its commands, each with its reply and the folder's status after it
TALK = [
    (put(f"{WORKFLOWS}/c.yml", CALLER), b"ok 1\n", 0),
    (REPORT, b"status 0\n", 0),
    (put("a/action.yml", CALLED), b"ok 2\n", 1),
    (REPORT, MISSING_INPUT + b"status 1\n", 1),
]
TALK_SCRIPT = b"".join(command for command, _, _ in TALK)
TALK_OUTPUT = b"".join(reply for _, reply, _ in TALK)


# ---- input


def pair_that_fails():
    """The two ends of a pseudoterminal: when the second is closed, reads from the first get what is left, and then fail (EIO)."""
    reader, writer = os.openpty()
    tty.setraw(writer)
    return reader, writer


class Packets:
    """The reading end of a pipe, from which each read gets one of these pieces while it is open; then the end, a failure, or neither before
    it is closed."""

    def __init__(self, pieces, ending="end"):
        self.reader, self.writer = pair_that_fails() if ending == "failure" else os.pipe2(os.O_DIRECT)
        if ending != "failure":
            fcntl.fcntl(self.writer, fcntl.F_SETPIPE_SZ, PIPE_ROOM)
        for piece in pieces:
            os.write(self.writer, piece)
        if ending in ("end", "failure"):
            os.close(self.writer)
            self.writer = None

    def left(self):
        """How many bytes weren't read."""
        count = bytearray(4)
        fcntl.ioctl(self.reader, termios.FIONREAD, count)
        return int.from_bytes(count, sys.byteorder)

    def __enter__(self):
        return self

    def __exit__(self, *_):
        os.close(self.reader)
        if self.writer is not None:
            os.close(self.writer)


def read_differences(place, pieces, ending, status, out, err):
    """How the run differs from this answer if the script arrives in these pieces."""
    with Packets([piece for piece in pieces if piece], ending) as packets:
        return differences_of(place.run(SCRIPT, packets.reader), status, out, err)


def replies_to(size):
    """The replies to the complete commands in the first bytes of the script, the folder's status then, and whether a partial command is
    left."""
    replies, status = NO, 0
    for command, reply, status_then in TALK:
        if size < len(command):
            break
        size -= len(command)
        replies += reply
        status = status_then
    return replies, status, size > 0


def cut_short(place, size):
    """A script that ends here: a partial command is a bad one."""
    replies, status, cut = replies_to(size)
    out, ended = (replies + b"bad command\n", 2) if cut else (replies, status)
    return read_differences(place, [TALK_SCRIPT[:size]], "end", ended, out, NO)


def pieces_of_a_script(place):
    """A script in two reads, in single bytes, with its end and with a failed read, at each position."""
    place.fresh()
    sizes = range(len(TALK_SCRIPT) + 1)
    parts = lambda size: [TALK_SCRIPT[:size], TALK_SCRIPT[size:]]
    each("script-in-two-reads", ((size, read_differences(place, parts(size), "end", 1, TALK_OUTPUT, NO)) for size in sizes))
    bytewise = [bytes([byte]) for byte in TALK_SCRIPT]
    each("script-a-byte-a-read", [(0, read_differences(place, bytewise, "end", 1, TALK_OUTPUT, NO))])
    each("script-that-ends", ((size, cut_short(place, size)) for size in sizes))
    failed = lambda size: read_differences(place, parts(size)[:1], "failure", 3, replies_to(size)[0], line(b"read failed"))
    each("script-whose-read-fails", ((size, failed(size)) for size in sizes))


def lines_of_input(place):
    """First lines that are too long, and truncated bytes of a file."""
    place.fresh()
    wrong = b"bad command\n"
    each("line-of-2048-bytes", [(0, read_differences(place, [b"x" * 2_048], "failure", 3, NO, line(b"read failed")))])
    # the program answers while the other end is open: it reads no more
    each("line-of-2049-bytes", [(0, read_differences(place, [b"x" * 2_049], "none", 2, wrong, NO))])
    cut = REPORT + b"put .github/workflows/a.yml 95\non: push\n"
    place.case("file-that-is-cut", 2, b"status 0\n" + wrong, NO, SCRIPT, stdin=cut)


def input_without_end(place):
    """Reports, byte by byte, without end: the program stops after its limit of reads."""
    place.fresh()
    replies = READS // len(REPORT)
    target = os.path.join(place.room, "replies")
    with Packets([], "none") as packets, open(target, "wb") as output:
        given = 0

        def feed():
            nonlocal given
            # a few more than are read, so the pipe still holds them when the program has ended
            for turn in range(READS + 100):
                given += os.write(packets.writer, REPORT[turn % len(REPORT)].to_bytes(1, "big"))

        feeder = threading.Thread(target=feed, daemon=True)
        feeder.start()
        ran = place.run(SCRIPT, packets.reader, stdout=output, timeout=WAITED)
        # it stays if the program read less
        feeder.join(1)
        taken = given - packets.left()
    with open(target, "rb") as output:
        ran.stdout = output.read()
    wrong = differences_of(ran, 3, b"status 0\n" * replies, line(b"too many reads"))
    if (replies, taken) != (149_796, READS):
        wrong.append(f"{taken} bytes were read")
    report("input-without-end", ran.returncode, wrong)


# ---- output


def held_differences(place, size, whole, words, stdin=NO):
    """What differs if the output accepts this many bytes."""
    ran, held = place.run_to_file(size, words, stdin)
    wrong = differences_of(ran, 3, NO, line(b"write failed"))
    return wrong if held == whole[:size] else wrong + [f"the output held {show(held)}"]


def narrow_output(place):
    """Output that accepts some bytes and then fails, for each number below the whole."""
    place.fresh()
    held = lambda whole, *given: ((size, held_differences(place, size, whole, *given)) for size in range(len(whole)))
    each("output-of-a-script-that-fails", held(TALK_OUTPUT, SCRIPT, TALK_SCRIPT))
    place.fresh({f"{WORKFLOWS}/c.yml": CALLER, "a/action.yml": CALLED})
    snippet = MISSING_INPUT + b"  |\n6 |       - uses: ./a\n  |               ^~~\n"
    place.case("output-of-a-folder", 1, snippet, NO)
    each("output-of-a-folder-that-fails", held(snippet, []))


if __name__ == "__main__":
    sys.exit(run_parts(pieces_of_a_script, lines_of_input, input_without_end, narrow_output))
