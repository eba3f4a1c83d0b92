"""What the comparing scripts share: the driver, built anew, and our programs."""
import os
import shlex
import subprocess
import sys
import tempfile

HERE = os.path.dirname(os.path.realpath(__file__))


def die(why):
    sys.exit(why)


def stop(differences):
    sys.exit(1 if differences else 0)


def parts(data):
    """Inputs that stand one after the other, each after its length."""
    at = 0
    while at < len(data):
        size = int.from_bytes(data[at:at + 4], "little")
        yield data[at + 4:at + 4 + size]
        at += 4 + size


class Programs:
    def __init__(self, src, bin_dir):
        self.bin_dir = bin_dir
        self.prefix = shlex.split(os.environ.get("RUN", ""))
        self.work = tempfile.TemporaryDirectory()
        subprocess.check_call([os.path.join(HERE, "build"), src, self.work.name])

    def __enter__(self):
        return self

    def __exit__(self, *_):
        self.work.cleanup()

    def driver(self, words, data=b""):
        return subprocess.run([os.path.join(self.work.name, "driver")] + words, input=data,
                              stdout=subprocess.PIPE, check=True).stdout

    def has(self, program):
        return os.path.exists(os.path.join(self.bin_dir, program))

    def ours(self, program, data):
        """Standard output; how the program ended does not count, what it said does."""
        return subprocess.run(self.prefix + [os.path.join(self.bin_dir, program)], input=data,
                              stdout=subprocess.PIPE).stdout
