#!/usr/bin/env python3
"""Runs loftline on random cards, sheets and lines, and compares its answers with an implementation of its own.

usage: tools/random_lines.py [COUNT [START]]

START is the number that the random choices start from. It needs the program that 'rt run' builds in crates/loftline. The rules are
those of docs/RULES.md, written here a second time in another language, so that a slip in one of the two shows.
"""
import random
import struct
import subprocess
import sys
import tempfile
from pathlib import Path

P = 2**32 + 15
WIDTHS = {0x46: 1, 0x4F: 4, 0x42: 1, 0x51: 16, 0x5A: 0, 0x58: 0, 0x43: 12}


def signed(word):
    return word - 2**32 if word >= 2**31 else word


def pairs(keys, words):
    return [(keys[i], words[i], keys[i + 1], words[i + 1]) for i in range(0, len(words), 2)]


def nh(keys, words):
    return sum(((k + m) % 2**32) * ((l + n) % 2**32) for k, m, l, n in pairs(keys, words)) % 2**64


def nhs(keys, words):
    return sum(signed((k + m) % 2**32) * signed((l + n) % 2**32) for k, m, l, n in pairs(keys, words)) % 2**64


def dot(keys, words):
    return sum(k * m for k, m in zip(keys, words))


def mmh_star(keys, words):
    return dot(keys, words) % P


def mmh(keys, words):
    return dot(keys, words) % 2**64 % P % 2**32


FAMILIES = {1: (nh, 2**64), 2: (nhs, 2**64), 3: (mmh_star, P), 4: (mmh, 2**32)}


def words_of(data):
    return [w[0] for w in struct.iter_unpack("<I", data)]


def root_tag(family, card, label, document):
    tag = FAMILIES[family][0]
    tags = []
    for at in range(0, max(len(document), 1), 128):
        block = document[at : at + 128]
        words = words_of(block + bytes(-len(block) % 8))
        tags.append(tag(card[: len(words)], words))
    for level in range(1, 5):
        above = []
        for at in range(0, len(tags), 16):
            words = [half for t in tags[at : at + 16] for half in (t % 2**32, t // 2**32)]
            above.append(tag(card[32 * level : 32 * level + len(words)], words))
        tags = above
    (top,) = tags
    return tag(card[160:], [top % 2**32, top // 2**32, len(document), label])


class Line:
    """The two books, the open job and the answers so far."""

    def __init__(self, card, pads):
        self.card, self.pads = card, pads
        self.family = None
        self.job = None
        self.next = 0
        self.floor = 0
        self.answers = b""
        self.seals = []

    def refuse(self, layer, number, place):
        self.answers += struct.pack("<BBBI", 0x52, layer, number, place)

    def root(self, job):
        return root_tag(self.family, self.card, *job)

    def take(self, place):
        if self.next >= len(self.pads):
            self.refuse(3, 7, place)
            return None
        self.next += 1
        return self.next - 1

    def seal(self, place):
        job, self.job = self.job, None
        number = self.take(place)
        if number is not None:
            tag = (self.root(job) + self.pads[number]) % FAMILIES[self.family][1]
            self.seals.append((job, number, tag))
            self.answers += struct.pack("<BIQ", 0x53, number, tag)

    def check(self, number, tag, place):
        job, self.job = self.job, None
        modulus = FAMILIES[self.family][1]
        if number >= len(self.pads):
            self.refuse(4, 5, place)
        elif number < self.floor:
            self.refuse(3, 10, place)
        elif tag >= modulus:
            self.refuse(3, 11, place)
        elif tag != (self.root(job) + self.pads[number]) % modulus:
            self.refuse(3, 12, place)
        else:
            self.floor = number + 1
            self.answers += struct.pack("<BI", 0x59, number)

    def obey(self, command, operands, place):
        if command == 0x46 and self.family is None and operands[0] in FAMILIES:
            self.family = operands[0]
        elif command == 0x46 or self.family is None:
            self.refuse(2, 17, place)
        elif command == 0x58:
            number = self.take(place)
            if number is not None:
                self.answers += struct.pack("<BI", 0x58, number)
        elif (command == 0x4F) == (self.job is not None):
            self.refuse(2, 18, place)
        elif command == 0x4F:
            self.job = (struct.unpack("<I", operands)[0], b"")
        elif command in (0x42, 0x51):
            self.job = (self.job[0], self.job[1] + operands)
        elif command == 0x5A:
            self.seal(place)
        else:
            self.check(*struct.unpack("<IQ", operands), place)

    def run(self, line):
        at = 0
        while at < len(line):
            width = WIDTHS.get(line[at])
            if width is None:
                return self.refuse(1, 13, at)
            operands = line[at + 1 : at + 1 + width]
            if len(operands) < width:
                return self.refuse(1, 14, at)
            self.obey(line[at], operands, at)
            at += 1 + width
        if self.job is not None:
            self.refuse(2, 18, len(line))


def expected(card, sheet, line):
    if len(line) > 4096:
        return struct.pack("<BBBI", 0x52, 1, 15, 0)
    if len(card) != 656:
        return struct.pack("<BBBI", 0x52, 3, 1, 0)
    if len(sheet) % 8 != 0:
        return struct.pack("<BBBI", 0x52, 4, 19, 0)
    if not 1 <= len(sheet) // 8 <= 256:
        return struct.pack("<BBBI", 0x52, 3, 4, 0)
    model = Line(words_of(card), [p[0] for p in struct.iter_unpack("<Q", sheet)])
    model.run(line)
    return model.answers


def random_word(rng):
    return rng.choice([0, 1, 7, 2**31, 2**32 - 1, rng.getrandbits(32)])


def random_feeds(rng):
    feeds = b""
    for _ in range(rng.choice([0, 1, 2, 9, 12, 140])):
        if rng.random() < 0.3:
            feeds += b"\x42" + rng.randbytes(1)
        else:
            feeds += b"\x51" + (rng.randbytes(16) if rng.random() < 0.7 else bytes(16))
    return feeds


def random_line(rng, card, pads):
    """Commands, some of them checks of jobs that the line sealed, right or a little wrong."""
    line = b"" if rng.random() < 0.03 else bytes([0x46, rng.choice([1, 2, 3, 4, 4, 0, 5])])
    jobs = []
    for _ in range(rng.randrange(1, 14)):
        model = Line(card, pads)
        model.run(line)
        kind = rng.randrange(12)
        if kind < 4:
            part = b"\x4f" + struct.pack("<I", random_word(rng)) + random_feeds(rng)
            jobs.append(part)
            line += part + b"\x5a"
        elif kind < 8 and jobs and model.seals:
            _, number, tag = rng.choice(model.seals)
            part = rng.choice(jobs)
            if rng.random() < 0.15:
                tag = rng.choice([tag ^ 1, P - 1, P, 2**32, rng.getrandbits(64)])
            if rng.random() < 0.1:
                number = rng.choice([number + 1, 255, 256, 2**32 - 1])
            line += part + b"\x43" + struct.pack("<IQ", number, tag % 2**64)
        elif kind == 8:
            line += b"\x58"
        elif kind == 9:
            line += rng.choice([b"\x46\x01", b"\x5a", b"\x42\x00", b"\x4f" + rng.randbytes(4), b"\x43" + rng.randbytes(12)])
        elif kind == 10 and rng.random() < 0.15:
            line += rng.choice([b"\x00", b"\x4f\x00", b"\x51abc", rng.randbytes(3)])
        elif kind == 11 and rng.random() < 0.05:
            line += (b"\x51" + rng.randbytes(16)) * rng.choice([100, 240])
        elif len(line) > 4096:
            break
    if rng.random() < 0.9:
        line = line[:4096]
    return line


def random_case(rng):
    card = rng.choice([b"\x01\x00\x00\x00" * 164, rng.randbytes(656), rng.randbytes(656), b"\xff" * 656])
    if rng.random() < 0.02:
        card = rng.randbytes(rng.choice([0, 652, 660, 5000]))
    count = rng.choice([1, 2, 3, 4, 7, 256]) if rng.random() < 0.97 else rng.choice([0, 257, 600])
    sheet = b"".join(rng.choice([bytes(8), b"\xff" * 8, rng.randbytes(8)]) for _ in range(count))
    if rng.random() < 0.02:
        sheet += b"\x00"
    words = words_of(card) if len(card) == 656 else [1] * 164
    line = random_line(rng, words, [p[0] for p in struct.iter_unpack("<Q", sheet[: len(sheet) // 8 * 8])])
    return card, sheet, line


def main():
    count = int(sys.argv[1]) if len(sys.argv) > 1 else 10000
    rng = random.Random(int(sys.argv[2]) if len(sys.argv) > 2 else 1)
    program = Path(__file__).resolve().parent.parent / "crates" / "loftline" / "out" / "loftline"
    agree = 0
    with tempfile.TemporaryDirectory() as folder:
        for _ in range(count):
            card, sheet, line = random_case(rng)
            Path(folder, "card.bin").write_bytes(card)
            Path(folder, "sheet.bin").write_bytes(sheet)
            done = subprocess.run([program], cwd=folder, input=line, capture_output=True)
            # the program reads at most 4,104 bytes of each
            if done.returncode == 0 and done.stdout == expected(card[:4104], sheet[:4104], line[:4104]):
                agree += 1
            else:
                print(f"differs: card {card.hex()} sheet {sheet.hex()} line {line.hex()} answers {done.stdout.hex()}")
    print(f"{agree} of {count} lines agree")
    return 0 if agree == count else 1


if __name__ == "__main__":
    sys.exit(main())
