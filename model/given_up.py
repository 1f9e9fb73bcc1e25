#!/usr/bin/env python3
"""What a failed call gave up cannot be called again: the compiler refuses it.

    model/given_up.py

It lays a copy of the crates into a scratch folder, with one crate more, whose only function flushes a live tree and, where that
failed, flushes it again. The toolchain's quick build has to refuse exactly that second use, as one of a value that was moved,
and nothing else. It proves nothing, and needs `rt` on the path. It ends with status 1 if anything else comes of it.
"""
import os
import re
import shutil
import subprocess
import sys
import tempfile

TOP = os.path.dirname(os.path.dirname(os.path.abspath(__file__)))

SOURCE = """\
//! A live tree after a flush that failed.
#![tactic(auto)]

use ax_base::Moment;
use live_tree::{LiveTree, flush_uncounted};
use std::alloc::Global;

/// Flushes, and again where that failed.
pub fn flush_again(alloc: Global, live: LiveTree, moment: Moment) -> bool {
    match flush_uncounted(alloc, live, moment) {
        Ok(_) => true,
        Err(_) => flush_uncounted(alloc, live, moment).is_ok(),
    }
}

#[cfg(test)]
mod tests {
    #[test]
    fn nothing(rt: HostRuntime) {
        let _rt = rt;
    }
}
"""
AGAIN = 1 + next(at for at, line in enumerate(SOURCE.splitlines()) if "Err(_) => flush" in line)


def lay(scratch):
    """Lays the crates into the folder, and the one that uses a live tree again."""
    subprocess.run(["git", "init", "-q", scratch], check=True)
    with open(os.path.join(TOP, "crates.txt"), encoding="utf-8") as file:
        lines = file.read()
    with open(os.path.join(scratch, "crates.txt"), "w", encoding="utf-8") as file:
        file.write(lines + "given_up: ax_base live_tree\n")
    shutil.copy2(os.path.join(TOP, "HANDLES"), scratch)
    shutil.copytree(os.path.join(TOP, "crates"), os.path.join(scratch, "crates"), ignore=shutil.ignore_patterns("out", "must-fail"))
    folder = os.path.join(scratch, "crates", "given_up", "src")
    os.makedirs(folder)
    with open(os.path.join(folder, "lib.rt"), "w", encoding="utf-8") as file:
        file.write(SOURCE)
    return os.path.dirname(folder)


def errors(crate):
    """What the quick build says is wrong: each error with its line and its name."""
    ran = subprocess.run(["rt", "try", "--test"], cwd=crate, stdin=subprocess.DEVNULL, stdout=subprocess.PIPE, stderr=subprocess.STDOUT, text=True)
    found = re.findall(r"(?m)^src/lib\.rt:(\d+):\d+: error\[([\w-]+)\]", ran.stdout)
    return ran.stdout, [(int(line), name) for line, name in found], len(re.findall(r"error\[", ran.stdout))


def main():
    with tempfile.TemporaryDirectory(prefix="given-up-") as scratch:
        said, found, count = errors(lay(scratch))
    if found == [(AGAIN, "borrow-e0382")] and count == 1:
        print("given up: a live tree whose flush failed cannot be used again: the compiler refuses it")
        return
    print(said, file=sys.stderr)
    sys.exit("given up: a second use of a live tree was not refused as the use of a moved value")


if __name__ == "__main__":
    main()
