"""Times lines of scripts, by the program and beside it by another one: what `feed`, `view` and `car/program` share.

A kind of work has its part of the sizes, and two functions of a size that give the lines of a script: without those
that are timed, and with them. The least processor time of three runs counts for each.
"""
import filecmp
import hashlib
import itertools
import os
import subprocess
import sys
import tempfile

ROOT = os.path.dirname(os.path.dirname(os.path.abspath(__file__)))
RUNS = 3
# Of fewer seconds no growth is printed.
LEAST = 0.005


def built():
    """The program: the file that the word MC names before the call, or that of this checkout."""
    if "MC" in os.environ:
        return os.environ["MC"]
    subprocess.run([f"{ROOT}/mc", "run"], stdin=subprocess.DEVNULL, check=True)
    return f"{ROOT}/crates/mc/out/mc"


def put(number, key=None, value=None):
    """The line of a put of 16 bytes, on a key of its own where none is given."""
    return f"put a {key or f'/k/{number}'} {number if value is None else value:032x}\n"


def then(before, lines):
    """A script that goes on with these lines."""
    return lambda size: itertools.chain(before(size), lines(size))


def varint(number):
    out = bytearray()
    while number >= 128:
        out.append(number % 128 + 128)
        number //= 128
    return bytes(out) + bytes([number])


def field(number, body):
    return bytes([8 * number + 2]) + varint(len(body)) + body


def block_of(links, key, value, priority):
    """The bytes of a block with one element, and links to blocks with these identifiers."""
    delta = field(1, field(1, key.encode()) + field(3, value)) + b"\x18" + varint(priority)
    return b"".join(b"\x12\x2a\x0a\x24" + link + b"\x12\x00\x18\x00" for link in links) + field(1, delta)


def cid_of(block):
    return b"\x01\x70\x12\x20" + hashlib.sha256(block).digest()


def run(program, script, replies, folder):
    """The seconds of processor, and the MiB, of a run. A child of this interpreter would begin with its memory, so
    another program stands between."""
    words = ["/usr/bin/time", "-f", "%M", "-o", f"{folder}/took", program, "run"]
    with open(script, "rb") as source, open(replies, "wb") as sink:
        child = subprocess.Popen(words, stdin=source, stdout=sink)
        _, status, used = os.wait4(child.pid, 0)
    if status != 0:
        sys.exit(f"bench: {program} failed")
    with open(replies, "rb") as file:
        if any(reply.startswith((b"refused", b"fault", b"stopped")) for reply in file):
            sys.exit(f"bench: {program} refused a line")
    with open(f"{folder}/took", encoding="utf-8") as took:
        return used.ru_utime + used.ru_stime, int(took.read()) / 1024


def main(usage, kinds):
    """Times all kinds of work by their sizes, and prints a table."""
    words = sys.argv[1:]
    if words[:1] in (["-h"], ["--help"]) or len(words) not in (0, 1, 3):
        sys.exit(usage)
    sizes = [int(word) for word in words[1:]] or [10_000, 100_000]
    programs = [("mc", built())] + [("other", word) for word in words[:1]]
    print(f"{'kind':<10}{'program':<9}{'size':>9}{'seconds':>10}{'of them':>10}{'growth':>8}{'MiB':>8}{'before':>8}")
    for kind, (part, *scripts) in kinds.items():
        before = {}
        for size in (max(size // part, 1) for size in sizes):
            with tempfile.TemporaryDirectory() as folder:
                for name, lines in zip(("without", "with"), scripts):
                    with open(f"{folder}/{name}", "w", encoding="utf-8") as file:
                        file.writelines(lines(size))
                for name, program in programs:
                    runs = [
                        [run(program, f"{folder}/{it}", f"{folder}/{name}", folder) for it in ("without", "with")]
                        for _ in range(RUNS)
                    ]
                    without, all_of = (min(times) for times in zip(*runs))
                    timed = max(all_of[0] - without[0], 0)
                    growth = f"{timed / before[name]:.1f}" if before.get(name, 0) >= LEAST else ""
                    before[name] = timed
                    shown = f"{kind:<10}{name:<9}{size:>9,}{all_of[0]:>10.3f}{timed:>10.3f}{growth:>8}"
                    print(f"{shown}{all_of[1]:>8.0f}{without[1]:>8.0f}", flush=True)
                if len(programs) > 1 and not filecmp.cmp(f"{folder}/mc", f"{folder}/other", shallow=False):
                    sys.exit(f"bench: the replies to {kind} of {size} differ")
