#!/usr/bin/env python3
"""Feeds a log to the lister in pieces of 1, 7 and 65536 octets, and says whether it gives one and the same text.

  tests/pieces.py [LOG]    without a log it makes one of a million octets (tests/listing.py log OCTETS makes others)
"""
import hashlib
import os
import subprocess
import sys
from pathlib import Path

ROOT = Path(__file__).resolve().parent.parent
LISTER = [str(ROOT / "bindings" / "x86-64"), str(ROOT / "target" / "bin" / "lister")]


def fed(log, size):
    """The text's digest and its last line."""
    reader = subprocess.Popen(LISTER, stdin=subprocess.PIPE, stdout=subprocess.PIPE)
    child = os.fork()
    if child == 0:
        out, view = reader.stdin.fileno(), memoryview(log)
        for at in range(0, len(log), size):
            piece = view[at:at + size]
            while piece:
                piece = piece[os.write(out, piece):]
        os._exit(0)
    reader.stdin.close()
    digest, tail = hashlib.sha256(), b""
    while block := reader.stdout.read(1 << 20):
        digest.update(block)
        tail = (tail + block)[-64:]
    os.waitpid(child, 0)
    return digest.hexdigest(), tail.splitlines()[-1].decode()


def main(words):
    subprocess.run([str(ROOT / "gad"), "list"], stdin=subprocess.DEVNULL, stdout=subprocess.DEVNULL, check=True)
    log = Path(words[0]).read_bytes() if words else subprocess.check_output([str(ROOT / "tests" / "listing.py"), "log", "1000000"])
    answers = []
    for size in (1, 7, 65536):
        answers.append(fed(log, size))
        print("pieces of %d: %s, sha256 %s" % (size, answers[-1][1], answers[-1][0]), flush=True)
    print("the same" if len(set(answers)) == 1 else "NOT the same")
    sys.exit(len(set(answers)) != 1)


if __name__ == "__main__":
    main(sys.argv[1:])
