"""Random lines of fields, and what a program writes for them against what it should, for the scripts beside this file."""
import random
import shlex
import subprocess
import sys
import threading

EDGES = [0, 1, 9, 10, 2**15 - 1, 2**15, 2**31 - 1, 2**31, 2**63 - 1, 2**63, 2**64 - 1, 2**64, 10**19, 10**20, 10**40]


# ---- Lines.

def number(r):
    """Any number, many at the edges of a type, and now and then what is none."""
    n = r.choice([r.choice(EDGES) + r.choice([-1, 0, 0, 1]), r.randrange(100), r.getrandbits(r.randrange(1, 70))])
    text = str(abs(n))
    if r.random() < 0.1:
        text = "0" * r.randrange(1, 30) + text
    if r.random() < 0.25:
        text = "-" + text
    if r.random() < 0.04:
        text = r.choice(["", "-", "+1", "1-", "--1", "1 ", " 1", "1\t", "0x1", "1_0", "²", "1.0", "٣"])
    return text.encode()


def letters(r, some, lengths):
    """A line of some letters in any order."""
    return bytes(r.choice(some) for _ in range(r.choice(lengths)))


def joined(r, parts, extra, words):
    """A line of a word and fields, parted by tabs and spaces; some get a field more or less, or another word."""
    if r.random() < 0.06:
        parts.insert(r.randrange(len(parts) + 1), extra(r))
    if r.random() < 0.06:
        del parts[r.randrange(len(parts))]
    if r.random() < 0.03:
        parts[:1] = [r.choice(words)]
    text = parts[0] if parts else b""
    for part in parts[1:]:
        text += r.choice([b" ", b"\t"]) + part
    return text


# ---- The program.

def arguments(usage):
    """The program, how many lines it is given and the seed, from the command line."""
    if not 2 <= len(sys.argv) <= 4:
        sys.exit(usage)
    return shlex.split(sys.argv[1]), *map(int, sys.argv[2:] + ["50000", "1"][len(sys.argv) - 2:])


def some_text(line, count, seed):
    """So many random lines, the last of them with or without a line feed, and the chance that made them."""
    r = random.Random(seed)
    return b"\n".join(line(r) for _ in range(count)) + r.choice([b"", b"\n"]), r


def written(program, text, r, sizes):
    """What a program writes for a text that is fed in parts of random sizes."""
    run = subprocess.Popen(program, stdin=subprocess.PIPE, stdout=subprocess.PIPE)

    def feed():
        at = 0
        while at < len(text):
            size = r.choice(sizes)
            run.stdin.write(text[at:at + size])
            run.stdin.flush()
            at += size
        run.stdin.close()

    feeder = threading.Thread(target=feed)
    feeder.start()
    got = run.stdout.read()
    feeder.join()
    if run.wait() != 0:
        sys.exit(f"the program ends with the status {run.returncode}")
    return got


def compare(got, expected):
    """Ends with the status 1 and the first difference, if there is one."""
    if got != expected:
        at = next((i for i, (a, b) in enumerate(zip(got, expected)) if a != b), min(len(got), len(expected)))
        print("differ at byte", at, got[max(0, at - 80):at + 80], expected[max(0, at - 80):at + 80])
        sys.exit(1)
