"""Runs a program on a story and measures it."""
import subprocess
import sys
import tempfile

RUNS = 5
READER = "import json,sys\nfor line in sys.stdin.buffer:\n    json.loads(line)\n"


class Measure:
    """The least wall time and the least processor time of some runs in seconds, and the peak memory of the last in bytes."""

    def __init__(self, seconds, processor, memory):
        self.seconds, self.processor, self.memory = seconds, processor, memory


# What a child's peak memory is told to be begins with that of the process which started it, so a small one starts the program.
STARTER = """import os, subprocess, sys, time
with open(sys.argv[1], "rb") as source:
    start = time.perf_counter()
    child = subprocess.Popen(sys.argv[2:], stdin=source, stdout=subprocess.DEVNULL)
    _, ended, usage = os.wait4(child.pid, 0)
    took = time.perf_counter() - start
print(os.waitstatus_to_exitcode(ended), took, usage.ru_utime + usage.ru_stime, usage.ru_maxrss * 1024)
"""


def run(words, path, runs=RUNS, status=0):
    """The words on the file as standard input."""
    wall, processor, peak = [], [], 0
    for _ in range(runs):
        started = subprocess.run([sys.executable, "-I", "-S", "-c", STARTER, path, *words], stdout=subprocess.PIPE, text=True, check=True)
        ended, took, busy, memory = started.stdout.split()
        if int(ended) != status:
            sys.exit("%s: status %s" % (" ".join(words), ended))
        wall.append(float(took))
        processor.append(float(busy))
        peak = int(memory)
    return Measure(min(wall), min(processor), peak)


def story(lines):
    """A file of these lines, which goes away with its object."""
    file = tempfile.NamedTemporaryFile("w", suffix=".story")
    file.write("\n".join(lines) + "\n")
    file.flush()
    return file


def python_reading(path):
    """python3's json.loads of each line: the yardstick."""
    return run([sys.executable, "-c", READER], path)
