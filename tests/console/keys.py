"""keys - `./mml keys` in a terminal: each key acts at once, the row shows the line, and the terminal is given back however the typing ends.

    python3 keys.py

It makes a terminal of its own for each session, types, and looks at what comes back, at the terminal's settings and at the status.
"""
import fcntl
import os
import pty
import select
import signal
import struct
import subprocess
import sys
import termios
import time

PATIENCE = 60  # seconds until an answer that does not come is a failure
BS, DEL, CAN, EOT, INTERRUPT, QUIT = b"\x08", b"\x7f", b"\x18", b"\x04", b"\x03", b"\x1c"
BELL, CLEAR, PROMPT = b"\x07", b"\r\x1b[K", b"mml> "
LFLAG = 3  # where termios has its local modes
LONGEST = 1024
BY_QUIT = 128 + signal.SIGQUIT  # bash ignores this signal, so that the script ends with a status of its own

failed = False


def wrong(name, what):
    """Tells of what is wrong and goes on."""
    global failed
    print(f"keys: {name}: {what}", file=sys.stderr)
    failed = True


def settings(terminal):
    return termios.tcgetattr(terminal)


class Session:
    """A console in a terminal of its own, ready for the first key."""

    def __init__(self, name, words=(), columns=80):
        self.name, self.said = name, b""
        self.here, self.there = pty.openpty()
        fcntl.ioctl(self.there, termios.TIOCSWINSZ, struct.pack("HHHH", 24, columns, 0, 0))
        self.before = settings(self.there)
        self.console = subprocess.Popen(
            ["./mml", "keys", *words], stdin=self.there, stdout=self.there, stderr=self.there, preexec_fn=self.own_terminal
        )
        self.wait_until("the prompt", lambda: self.said.endswith(CLEAR + PROMPT))
        self.expect("a terminal that echoes nothing and waits for no Return", settings(self.there)[LFLAG] & (termios.ECHO | termios.ICANON), 0)

    def own_terminal(self):
        """Makes the terminal the one that the console's signals come from. What is started in the background ignores two of them, and hands that on."""
        for ignored in (signal.SIGINT, signal.SIGQUIT):
            signal.signal(ignored, signal.SIG_DFL)
        os.setsid()
        fcntl.ioctl(self.there, termios.TIOCSCTTY, 0)

    def expect(self, what, found, stated):
        if found != stated:
            wrong(self.name, f"{what}: {found!r} and not {stated!r}")

    def hear(self, seconds):
        """Takes what the console says within so many seconds; was there anything?"""
        if not select.select([self.here], [], [], seconds)[0]:
            return False
        self.said = (self.said + os.read(self.here, 65536)).replace(b"\r\n", b"\n")
        return True

    def wait_until(self, what, holds):
        """Listens until this holds of what is said."""
        end = time.monotonic() + PATIENCE
        while not holds():
            if time.monotonic() > end:
                wrong(self.name, f"{what} did not come, but {self.said[-400:]!r}")
                return
            self.hear(0.1)

    def type(self, keys):
        """Types; what is said from here on is heard apart."""
        self.said = b""
        os.write(self.here, keys)

    def row(self):
        """What stands in the row that is typed in."""
        return self.said.split(CLEAR)[-1]

    def shows(self, keys, row):
        """These keys leave this line in the row."""
        self.type(keys)
        self.wait_until(f"the row {row!r} behind {keys[-20:]!r}", lambda: self.row() == PROMPT + row)

    def answers(self, keys, line, row=b""):
        """These keys are answered with this line, and leave this line in the row."""
        self.type(keys)
        self.wait_until(f"the answer {line!r} to {keys[-20:]!r}", lambda: b"\n" + line + b"\n" in self.said and self.row() == PROMPT + row)

    def ends(self, keys, status):
        """Types what ends the session."""
        os.write(self.here, keys)
        self.ended(status)

    def ended(self, status):
        """The session ends with this status, and the terminal is as it was."""
        try:
            found = self.console.wait(PATIENCE)
        except subprocess.TimeoutExpired:
            self.console.kill()
            found = "no end"
        while self.hear(0):
            pass
        self.expect("status", found, status)
        self.expect("the terminal behind it", settings(self.there), self.before)
        os.close(self.there)
        os.close(self.here)


def type_and_correct():
    one = Session("keys that correct")
    one.shows(b"SET-ATT:LEV=3X", b"SET-ATT:LEV=3X")
    one.shows(DEL, b"SET-ATT:LEV=3")
    one.shows(b"Y", b"SET-ATT:LEV=3Y")
    one.shows(BS, b"SET-ATT:LEV=3")
    one.answers(b".5;", b"accepted, 1 order: SET-ATT:LEV=3.5;")
    one.shows(b"GARBAGE", b"GARBAGE")
    one.shows(CAN, b"")
    one.shows(BS + DEL + CAN + b"A", b"A")
    one.answers(b';', b"accepted, 1 order: A;")
    one.shows(BS, b"")
    one.shows(b'B:"x;', b'B:"x;')
    one.answers(b'";', b'accepted, 1 order: B:"x;";')
    one.shows(b"C\t\rD\x1b[A", b"C..D.[A")
    one.answers(b";", b"refused 3 at 4: this byte is not permitted")
    one.answers(b"A:B=3,5;", b"refused 9 at 6: a named place among unnamed ones, or the other way round")
    one.ends(EOT, 1)


def long_lines():
    one = Session("a line of 1,024 bytes")
    line = b"A:" + b"7&" * 510 + b"7"
    one.shows(line, b".." + line[-72:])
    full = line + b" "
    one.shows(b" ", b".." + full[-72:])
    one.expect("the bytes held", len(full), LONGEST)
    one.answers(b"8", b"refused 20 at 1024: this key is not taken: a line has at most 1,024 bytes", b".." + full[-72:])
    one.expect("the bell, once", one.said.count(BELL), 1)
    one.shows(b"9;" + CAN, b"")
    one.expect("two more keys are not told of again, but by the bell", one.said, BELL + BELL + CLEAR + PROMPT)
    one.shows(full, b".." + full[-72:])
    one.shows(BS, b".." + line[-72:])
    one.answers(b";", b"refused 15 at 129: too long a word or string, or a block, place or element too many")
    one.shows(b"A" * LONGEST + CAN, b"")
    one.answers(b"A;", b"accepted, 1 order: A;")
    one.ends(EOT, 1)


def narrow_terminal():
    one = Session("a terminal of 20 columns", columns=20)
    one.shows(b"A:1,2,3,4,5,6", b"A:1,2,3,4,5,6")
    one.shows(b",7,8", b"..,3,4,5,6,7,8")
    one.answers(b";", b"accepted, 1 order: A:1,2,3,4,5,6,7,8;")
    one.ends(EOT, 0)


def with_bases():
    one = Session("base letters", ("H",))
    one.answers(b"A:1F;", b"accepted, 1 order: A:1F;")
    one.ends(EOT, 0)


def ends():
    Session("Ctrl-D at once").ends(EOT, 0)
    one = Session("Ctrl-D behind a line that is cut off")
    one.shows(b"A:5", b"A:5")
    one.ends(EOT, 1)
    if b"refused 6 at 3: " not in one.said:
        wrong(one.name, f"the line is lost: {one.said!r}")
    one = Session("Ctrl-C")
    one.shows(b"A:5", b"A:5")
    one.ends(INTERRUPT, -signal.SIGINT)
    Session("Ctrl-\\").ends(QUIT, BY_QUIT)
    for sent in (signal.SIGTERM, signal.SIGHUP, signal.SIGINT):
        one = Session(f"{sent.name} to the script")
        one.shows(b"A:5", b"A:5")
        os.kill(one.console.pid, sent)
        one.ended(-sent)


def main():
    if not os.path.exists("mml"):
        print("keys: there is no ./mml here: start it in the folder that has it", file=sys.stderr)
        sys.exit(2)
    for session in (type_and_correct, long_lines, narrow_terminal, with_bases, ends):
        session()
    sys.exit(failed)


main()
