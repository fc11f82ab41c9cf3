"""A program on a pseudo-terminal, and what a person sees of it."""
import fcntl
import os
import pty
import re
import select
import signal
import struct
import termios
import time

WAIT = 3600


class Terminal:
    """Runs a command on a terminal of its own. `lines` has each line that it has ended with the seconds after which that was; `last` is the line that is being
    written; `held` has, of each second, what stood in that one."""

    def __init__(self, words, cwd=None, env=None):
        self.lines, self.last, self.held, self.status = [], "", {}, None
        self._rest, self._began, self._ended = b"", time.monotonic(), None
        self.pid, self._fd = pty.fork()
        if self.pid == 0:
            try:
                for key in signal.SIGINT, signal.SIGQUIT:  # what runs in the background of a script ignores both, and all that it begins
                    signal.signal(key, signal.SIG_DFL)
                os.chdir(cwd or ".")
                os.execvpe(words[0], words, {**os.environ, "TERM": "xterm", **(env or {})})
            finally:
                os._exit(127)
        fcntl.ioctl(self._fd, termios.TIOCSWINSZ, struct.pack("HHHH", 24, 80, 0, 0))

    def seconds(self):
        """How long it has run, or ran."""
        return (self._ended or time.monotonic()) - self._began

    def _took(self, data):
        """Carriage return, alone or with the sequence that clears a line, begins the line anew."""
        text = self._rest + data
        cut = len(text) - len(re.search(rb"(\r(\x1b(\[)?)?)?\Z", text).group())
        self._rest = text[cut:]
        for piece in re.split(rb"(\r\n|\n|\r\x1b\[K|\r)", text[:cut]):
            if piece in (b"\n", b"\r\n"):
                self.lines.append((self.seconds(), self.last))
                self.last = ""
            elif piece in (b"\r", b"\r\x1b[K"):
                self.last = ""
            else:
                self.last += piece.decode(errors="replace")
        if self.last:
            self.held[int(self.seconds())] = self.last

    def until(self, seen, wait=WAIT):
        """Reads on until `seen`, given this terminal, is true, or the command has ended. Says whether it was true."""
        end = time.monotonic() + wait
        while not seen(self):
            left = end - time.monotonic()
            if self.status is not None or left <= 0:
                return False
            if not select.select([self._fd], [], [], min(left, 0.2))[0]:
                continue
            try:
                data = os.read(self._fd, 65536)
            except OSError:  # how a terminal says that nobody writes to it any more
                data = b""
            if data:
                self._took(data)
            else:
                self.status = os.waitstatus_to_exitcode(os.waitpid(self.pid, 0)[1])
                self._ended = time.monotonic()
                os.close(self._fd)
        return True

    def end(self, wait=WAIT):
        """Reads on until the command has ended, and answers its exit status."""
        self.until(lambda _: False, wait)
        return self.status

    def type(self, text):
        os.write(self._fd, text.encode())

    def interrupt(self):
        self.type("\x03")  # Ctrl-C

    def kill(self):
        if self.status is None:
            os.kill(self.pid, signal.SIGKILL)
