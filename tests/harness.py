"""Running the program under test, and counting what passed."""
import shlex
import subprocess
import sys
import threading
import time

PATIENCE = 120  # seconds until a program that does not end is stopped


class Tally:
    """How many checks passed and failed; says what failed, for the first twenty."""

    def __init__(self):
        self.passed = self.failed = 0

    def equal(self, what, got, want):
        if got == want:
            self.passed += 1
        else:
            self.failed += 1
            if self.failed <= 20:
                print('FAIL %s\n  want %s\n  got  %s' % (what, shorten(want), shorten(got)))

    def add(self, other):
        self.passed += other.passed
        self.failed += other.failed

    def __str__(self):
        return '%d passed, %d failed' % (self.passed, self.failed)

    def finish(self):
        """Prints the last line; the exit status. A run without a check is a failure."""
        print(self, flush=True)
        return 1 if self.failed or not self.passed else 0


def shorten(value, length=400):
    text = repr(value)
    return text if len(text) <= length else '%s.. (%d characters)' % (text[:length], len(text))


def output(command, data, dribble=False):
    """What the command writes when it reads these bytes; or, where that is not all that there is to say, its exit status and what it
    wrote to standard error."""
    process = subprocess.Popen(command, stdin=subprocess.PIPE, stdout=subprocess.PIPE, stderr=subprocess.PIPE, bufsize=0)
    guard = threading.Timer(PATIENCE, process.kill)
    guard.start()
    if dribble:
        send_in_pieces(process.stdin, data)
        data = None
    out, said = process.communicate(data)
    guard.cancel()
    return out if process.returncode == 0 and not said else (out, process.returncode, said)


def send_in_pieces(pipe, data, pieces=40, pause=0.0005):
    """Short writes with pauses between them, so that the program meets short reads. One piece ends
    with the fourth line, where a job would be whole."""
    cuts = set(range(0, len(data), max(7, len(data) // pieces + 1)))
    cuts |= {0, sum(map(len, data.splitlines(True)[:4])), len(data)}
    cuts = sorted(cuts)
    try:
        for start, end in zip(cuts, cuts[1:]):
            pipe.write(data[start:end])
            time.sleep(pause)
    except BrokenPipeError:
        pass  # the program has read enough


def arguments(usage):
    """The program's command, in words, and whether --dribble was given."""
    words = [word for word in sys.argv[1:] if word != '--dribble']
    if len(words) != 1 or words[0].startswith('-'):
        sys.exit(usage)
    return shlex.split(words[0]), '--dribble' in sys.argv
