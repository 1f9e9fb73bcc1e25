"""Runs of a program to which the system gives less than it asks for (faults.c).

The library is compiled into a folder of its own by the C compiler, `cc` or what $CC names. Where there is none, `Faults.of` gives
None, and the checks that stand on it are left out, as they say.
"""
import mmap
import os
import shutil
import struct
import subprocess
import tempfile

SOURCE = os.path.join(os.path.dirname(os.path.abspath(__file__)), "faults.c")
GIVEN = ("refuse", "for_good", "no_thread", "read_fault", "read_most", "write_fault", "write_most", "seed", "every")
COUNTED = ("allocations", "refused", "reads", "writes", "threads", "waits", "held", "most_held")
FORM = struct.Struct("=%dQ" % len(GIVEN + COUNTED))


class Ended:
    """How a run ended: its status, what it wrote, and what was counted."""

    def __init__(self, status, text, errors, counted):
        self.status, self.text, self.errors, self.counted = status, text, errors, counted

    def told(self):
        return "status %d, %r%s" % (self.status, self.text[:200], ", errors %r" % self.errors[:300] if self.errors else "")


class Hung(Exception):
    """A run that had no end in its time."""


class Faults:
    def __init__(self, compiler, longest):
        self.folder, self.longest = tempfile.TemporaryDirectory(), longest
        library, table = os.path.join(self.folder.name, "faults.so"), os.path.join(self.folder.name, "told")
        subprocess.run([compiler, "-O2", "-shared", "-fPIC", "-o", library, SOURCE, "-ldl", "-lpthread"], check=True)
        with open(table, "w+b") as file:
            file.truncate(FORM.size)
            self.table = mmap.mmap(file.fileno(), FORM.size)
        self.environment = {**os.environ, "LD_PRELOAD": library, "AXCORE_FAULTS": table}

    @classmethod
    def of(cls, program, longest=60):
        """The library, or None without a compiler. Where it counts no call of the program it would show nothing, and all ends here."""
        compiler = shutil.which(os.environ.get("CC", "cc"))
        if compiler is None:
            return None
        faults = cls(compiler, longest)
        if not faults.run([program, "dump"], b'{"start":1}\n').counted["allocations"]:
            raise SystemExit("the library of faults.c counts no call of %s" % program)
        return faults

    def run(self, words, source=b"", **given):
        """A run of these words on that input, where the system gives only what is given here; Hung where it has no end."""
        FORM.pack_into(self.table, 0, *[given.get(name, 0) for name in GIVEN], *[0] * len(COUNTED))
        with tempfile.TemporaryFile() as file:
            file.write(source)
            file.seek(0)
            try:
                done = subprocess.run(words, stdin=file, stdout=subprocess.PIPE, stderr=subprocess.PIPE, env=self.environment, timeout=self.longest)
            except subprocess.TimeoutExpired:
                raise Hung("no end in %d seconds" % self.longest) from None
        return Ended(done.returncode, done.stdout, done.stderr, dict(zip(COUNTED, FORM.unpack_from(self.table)[len(GIVEN):])))
