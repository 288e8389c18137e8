#!/usr/bin/env python3
"""A list as a file (document 02, Job 5), read and written by code of its own, and the cases of crates/try_texts, in its third section.

model.py cases DIR              writes DIR/stdin, the cases, and DIR/stdout, what is to be answered
model.py write < TEXT > FILE    the file of a list in the words of `basis`, after a line "p q" and the coefficients, as `basis` reads them
"""
import random
import struct
import sys

WORD = 1 << 32


# ---- files: 512-byte blocks of 128 little-endian words, which add to zero modulo 2^32


def block(number, words):
    content = [number] + words + [0] * (126 - len(words))
    content.append(-sum(content) % WORD)
    return content


def to_bytes(words):
    return b"".join(struct.pack("<I", w) for w in words)


def written(p, q, coefs, rows, ending):
    """rows: a list of tuples"""
    stream = [c % WORD for c in coefs] + [x for row in rows for x in row]
    words = block(0, [p, q, len(rows), ending])
    for k in range(0, len(stream), 126):
        words += block(k // 126 + 1, stream[k : k + 126])
    return to_bytes(words)


def read(file, coef_room, list_room):
    """p, q, rows, ending and the stream; or the number of the refusal"""
    if len(file) < 512:
        return 19
    blocks = [struct.unpack("<128I", file[k : k + 512]) for k in range(0, len(file) - 511, 512)]

    def damage(number, words, in_range):
        if sum(words) % WORD:
            return 20
        if words[0] != number:
            return 21
        return 0 if in_range(words[1:127]) else 22

    def header(words):
        p, q, rows, ending = words[:4]
        return 1 <= p <= 8 and 1 <= q <= 16 and rows <= 4096 and ending <= 1 and not any(words[4:])

    found = damage(0, blocks[0], header)
    if found:
        return found
    p, q, rows, ending = blocks[0][1:5]
    if len(file) % 512 or len(blocks) != 1 + -(-(p * q + rows * q) // 126):
        return 19

    def fits(place, word):
        if place < p * q:
            return abs(word - WORD if word >= WORD // 2 else word) <= 10000
        return word <= 1000000 if place < p * q + rows * q else word == 0

    stream = []
    for number, words in list(enumerate(blocks))[1:]:
        found = damage(number, words, lambda ws: all(fits(len(stream) + j, w) for j, w in enumerate(ws)))
        if found:
            return found
        stream += words[1:127]
    if coef_room < p * q or list_room < rows * q:
        return 29
    return p, q, rows, ending, stream[: p * q + rows * q]


# ---- cases: a file made byte by byte, and then read


class Cases:
    def __init__(self):
        self.lines, self.expected = [], []
        self.held, self.rooms = bytearray(8192), (128, 2048)

    def title(self, text):
        self.lines.append("# " + text)
        self.expected.append("# " + text)

    def hold(self, file):
        """the bytes that differ from those held so far"""
        for i, byte in enumerate(file):
            if self.held[i] != byte:
                self.lines.append(f"b {i} {byte}")
                self.held[i] = byte

    def read(self, file, length=None, rooms=(128, 2048)):
        """the file, or as many bytes as said of what stands there"""
        self.hold(file)
        length = len(file) if length is None else length
        if rooms != self.rooms:
            self.lines.append("t %d %d" % rooms)
            self.rooms = rooms
        self.lines.append(f"r {length}")
        answer = read(bytes(self.held[:length]), *rooms)
        self.expected.append(f"refused {answer}" if isinstance(answer, int) else "read %d %d %d %d" % answer[:4])

    def turn(self, file):
        self.hold(file)
        self.lines.append(f"v {len(file)}")
        answers = []
        for bit in range(8 * len(file)):
            turned = bytearray(file)
            turned[bit // 8] ^= 1 << bit % 8
            answers.append(read(bytes(turned), *self.rooms))
        assert set(answers) == {20}
        self.expected.append(f"bits turned {len(answers)}, refused 20 {answers.count(20)}")


def repaired(file, changes):
    """words changed, by place, and the last word of their blocks with them"""
    words = list(struct.unpack(f"<{len(file) // 4}I", file))
    for place, word in changes.items():
        words[place] = word % WORD
    for k in {place // 128 for place in changes}:
        words[128 * k + 127] = -sum(words[128 * k : 128 * k + 127]) % WORD
    return to_bytes(words)


def cases():
    t = Cases()
    coefs = [-1, 1, 2, -3, -1, 3, -2, -1]
    example = written(2, 4, coefs, [(0, 1, 1, 1), (4, 2, 1, 0)], 0)
    draw = random.Random(5)
    drawn = lambda n, k: [tuple(draw.choice((0, 1, 7, 255, 256, 65535, 65536, 1000000)) for _ in range(k)) for _ in range(n)]

    t.title("whole files")
    t.read(example)
    t.read(written(2, 4, coefs, [], 1))
    t.read(written(1, 1, [0], [(1,)], 0))
    t.read(written(1, 2, [10000, -10000], [(1, 1)], 0))
    t.title("126 and 127 words of stream, and three blocks of it")
    t.read(written(1, 6, [1, -1, 0, 0, 0, 0], drawn(20, 6), 0))
    t.read(written(1, 1, [3], drawn(125, 1), 1))
    t.read(written(1, 1, [3], drawn(126, 1), 1))
    large = written(8, 16, [draw.randint(-10000, 10000) for _ in range(128)], drawn(12, 16), 0)
    t.read(large)
    t.title("tables: exact, one entry short, both short, none")
    for rooms in ((8, 8), (7, 8), (8, 7), (7, 7), (0, 0)):
        t.read(example, rooms=rooms)
    t.title("lengths: cut short and lengthened")
    for length in (0, 1, 511, 512, 513, 1023, 1025, 1535, 1536):
        t.read(example, length)
    t.read(large, len(large) - 512)
    t.title("blocks exchanged, doubled, one for the other")
    first, second = example[:512], example[512:]
    for file in (second + first, first + first, second + second, example + second, first + first + second):
        t.read(file)
    t.read(large[:512] + large[1024:1536] + large[512:1024] + large[1536:])
    t.title("block 0, its sum repaired: number, p, q, rows, ending, zeros after")
    for place, words in {0: (1, 256), 1: (0, 1, 3, 8, 9, WORD - 1), 2: (0, 3, 5, 16, 17), 3: (1, 3, 29, 30, 4096, 4097), 4: (1, 2), 5: (1,), 126: (1,)}.items():
        for word in words:
            t.read(repaired(example, {place: word}))
    t.title("block 1, its sum repaired: number, coefficients, components, filler")
    for place, words in {
        128: (0, 2, WORD - 1),
        129: (10000, 10001, WORD - 10000, WORD - 10001, WORD // 2),
        136: (10001,),
        137: (1000000, 1000001, WORD - 1),
        144: (1000000, 1000001),
        145: (1,),
        254: (1, WORD - 1),
    }.items():
        for word in words:
            t.read(repaired(example, {place: word}))
    t.title("two faults: the order of 20, 21, 22, 19 and 29")
    wrong_sum = bytearray(example)
    wrong_sum[1020] ^= 1
    t.read(repaired(bytes(wrong_sum), {1: 9}))
    t.read(repaired(example, {0: 7, 1: 9}))
    t.read(repaired(example, {1: 9}), 512)
    t.read(repaired(example, {3: 4097}), 1023)
    t.read(repaired(example, {3: 200, 128: 5}))
    t.read(bytes(wrong_sum), rooms=(0, 0))
    t.read(repaired(example, {128: 2, 129: 10001}))
    t.read(repaired(example, {145: 1}), rooms=(7, 8))
    t.read(repaired(large, {128 * 2 + 5: 1000001, 128 * 3: 9}))
    t.read(repaired(large, {128 * 2: 9, 128 * 1 + 5: 10001}))
    t.title("the bytes of each word turned round")
    t.read(b"".join(example[k : k + 4][::-1] for k in range(0, len(example), 4)))
    t.title("every bit of a file of two blocks turned, one at a time")
    t.turn(example)
    return t


def main():
    if sys.argv[1] == "cases":
        t = cases()
        for name, lines in (("stdin", t.lines), ("stdout", t.expected)):
            with open(f"{sys.argv[2]}/{name}", "w") as out:
                out.write("\n".join(lines) + "\n")
    else:
        numbers = iter(sys.stdin.read().split())
        p, q = int(next(numbers)), int(next(numbers))
        coefs = [int(next(numbers)) for _ in range(p * q)]
        words = list(numbers)
        count = int(words[words.index("solutions") + 1])
        start = words.index("solutions") + 2
        rows = [tuple(map(int, words[start + k * q : start + k * q + q])) for k in range(count)]
        sys.stdout.buffer.write(written(p, q, coefs, rows, {"complete": 0, "paused": 1}[words[-1]]))


if __name__ == "__main__":
    main()
