"""What the trials of the program share: running it, and feeding it line by line."""
import os
import select
import subprocess

# A line that is fed is answered within this many seconds, on however slow a machine.
PATIENCE = 20


def run(program, words, script=""):
    """The status of the program, its output, and what it said on standard error."""
    done = subprocess.run([program, *words], input=script.encode(), stdout=subprocess.PIPE, stderr=subprocess.PIPE)
    return done.returncode, done.stdout.decode(), done.stderr.decode()


class Fed:
    """The program with its input and output held open, fed by hand."""

    def __init__(self, program, words, stdin=subprocess.PIPE, stdout=subprocess.PIPE):
        self.process = subprocess.Popen([program, *words], stdin=stdin, stdout=stdout, stderr=subprocess.PIPE)
        self.into = self.process.stdin.fileno() if stdin == subprocess.PIPE else None
        self.out = self.process.stdout.fileno() if stdout == subprocess.PIPE else None
        self.left = b""

    def feed(self, text):
        os.write(self.into, text.encode())

    def waits(self, seconds):
        """Whether nothing is said within so many seconds."""
        return not self.left and not select.select([self.out], [], [], seconds)[0]

    def line(self):
        """The next line that the program says, which must come while its input is held open."""
        while b"\n" not in self.left:
            ready, _, _ = select.select([self.out], [], [], PATIENCE)
            assert ready, f"no answer within {PATIENCE} s, after {self.left!r}"
            some = os.read(self.out, 65_536)
            assert some, f"the output ended, after {self.left!r}"
            self.left += some
        line, self.left = self.left.split(b"\n", 1)
        return line.decode().rstrip("\r")

    def asks(self, line, *answers):
        """Feeds a line, and waits for its answers."""
        self.feed(line + "\n")
        found = [self.line() for _ in answers]
        assert found == list(answers), (line, found, answers)

    def end(self):
        """Ends the input, and gives the program's status."""
        self.process.stdin.close()
        return self.process.wait(PATIENCE)

    def kill(self):
        self.process.kill()
        self.process.wait(PATIENCE)
