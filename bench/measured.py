"""What the Python scripts beside this share: runs of the program, measured."""
import os
import subprocess
import tempfile

TOP = os.path.dirname(os.path.dirname(os.path.abspath(__file__)))
BUILT = os.path.join(TOP, "crates/calendrica/out/calendrica")


def range_of(name, version=""):
    """The first and the last of a range that docs/FORMAT.md gives (tests/ranges)."""
    command = ["sh", os.path.join(TOP, "tests/ranges"), name, str(version)]
    first, last = subprocess.run(command, stdout=subprocess.PIPE, check=True, universal_newlines=True).stdout.split()
    return int(first), int(last)


# Random numbers that are the same on every machine (Lehmer's, modulo 2^31 - 1).
def random_numbers(state=1):
    while True:
        state = state * 16807 % 2147483647
        yield state


class Measured:
    """A program whose runs are measured; the inputs and texts lie in a folder that goes when the script ends."""

    def __init__(self, program):
        self.program = program
        self.folder = tempfile.TemporaryDirectory()
        self.input = os.path.join(self.folder.name, "input")
        self.text = os.path.join(self.folder.name, "text")

    def put(self, text):
        """The input of the runs that follow."""
        with open(self.input, "w") as file:
            file.write(text)

    def printed(self):
        """What the last run printed."""
        with open(self.text) as file:
            return file.read()

    def seconds(self, *words):
        """The processor seconds of one run on the input."""
        source = (os.POSIX_SPAWN_OPEN, 0, self.input, os.O_RDONLY, 0)
        sink = (os.POSIX_SPAWN_OPEN, 1, self.text, os.O_WRONLY | os.O_CREAT | os.O_TRUNC, 0o600)
        child = os.posix_spawn(self.program, [self.program, *words], os.environ, file_actions=[source, sink])
        _, status, usage = os.wait4(child, 0)
        if os.waitstatus_to_exitcode(status) not in (0, 1):
            raise SystemExit("status %d of %s" % (os.waitstatus_to_exitcode(status), words))
        return usage.ru_utime + usage.ru_stime

    def least(self, turns, *words):
        """The least processor seconds of so many runs."""
        return min(self.seconds(*words) for _ in range(turns))

    def mebibytes(self, *words):
        """The most memory of a run, by GNU time: what a child of this process had before it was the program counts otherwise."""
        kept = os.path.join(self.folder.name, "kept")
        with open(self.input) as source:
            command = ["time", "-q", "-o", kept, "-f", "%M", self.program, *words]
            subprocess.run(command, stdin=source, stdout=subprocess.DEVNULL, check=False)
        with open(kept) as file:
            return int(file.read()) / 1024


def rounded(number):
    """Three digits of a rate."""
    size = 1
    while number >= 1000 * size:
        size *= 10
    return "{:,}".format(round(number / size) * size)
