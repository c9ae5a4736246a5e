#!/usr/bin/env python3
"""Makes `stdin` and `stdout` of this program, from document 01 alone: its own blocks, its own reader.

Run it in this folder:  python3 expected.py
It uses nothing of the Rattle code. src/main.rt says what a step of the input is and what is printed.
"""
import itertools
import os

BLOCK = 512
HELD = 6656     # bytes of the program's file, 13 blocks


def pair(number):
    return bytes([number % 256, number // 256])


def check(front):
    """The sum over bytes i = 0..509 of (i + 1) x byte i, modulo 65,521."""
    return sum((i + 1) * front[i] for i in range(510)) % 65521


def sealed(front):
    """510 bytes and their check."""
    return front + pair(check(front))


def block(number, used, words):
    """A block with this number and use count; `words` fill its 253 places, zeros behind them."""
    words = words + [0] * (253 - len(words))
    return sealed(pair(number) + pair(used) + b''.join(pair(w) for w in words))


def file_of(words):
    """The file of the words: every block but the last is full."""
    parts = [words[i:i + 253] for i in range(0, len(words), 253)]
    return b''.join(block(k, len(part), part) for k, part in enumerate(parts))


def pair_at(file, at):
    return file[at] + 256 * file[at + 1]


def read(file, room):
    """What the reader must answer: ('words', n) or ('refused', number), and the buffer."""
    nothing = [0] * room
    if len(file) == 0 or len(file) % BLOCK != 0 or len(file) > 5632:
        return ('refused', 1), nothing
    blocks = [file[i:i + BLOCK] for i in range(0, len(file), BLOCK)]
    if any(pair_at(b, 510) != check(b) for b in blocks):
        return ('refused', 2), nothing
    words = []
    for k, b in enumerate(blocks):
        used = pair_at(b, 2)
        held = [pair_at(b, 4 + 2 * i) for i in range(253)]
        right = 1 <= used <= 253 if k == len(blocks) - 1 else used == 253
        if pair_at(b, 0) != k or not right or any(held[used:]):
            return ('refused', 3), nothing
        words += held[:used]
    if room < len(words):
        return ('refused', 4), nothing
    return ('words', len(words)), words + [0] * (room - len(words))


def digest(words):
    total = 0
    for word in words:
        total = (total * 65599 + word) % 4294967291
    return total


class Cases:
    """The steps so far, and what they print. `held` is the program's file."""

    def __init__(self):
        self.steps, self.lines, self.held = [], [], bytearray(HELD)

    def step(self, kind, first, second):
        self.steps.append(pair(kind) + pair(first) + pair(second))

    def group(self, number):
        self.step(2, number, 0)
        self.lines.append(f'group {number}')

    def read(self, file, room):
        """Only the bytes that differ from the program's file are sent."""
        for place, byte in enumerate(file):
            if self.held[place] != byte:
                self.step(0, place, byte)
                self.held[place] = byte
        self.step(1, len(file), room)
        (kind, number), words = read(bytes(file), room)
        self.lines.append(f'bytes {len(file)} room {room} {kind} {number} digest {digest(words)}')


def changed(file, place, byte):
    return file[:place] + bytes([byte]) + file[place + 1:]


def resealed(file, k):
    """The file with the check of block k made right."""
    at = BLOCK * k
    return file[:at] + sealed(file[at:at + 510]) + file[at + BLOCK:]


def with_pair(file, at, number):
    """The number put at a byte, and its block's check made right."""
    return resealed(file[:at] + pair(number) + file[at + 2:], at // BLOCK)


def some_words(count, seed):
    return [(seed + 7919 * i * i + 104729 * i) % 65536 for i in range(count)]


SMALL = some_words(7, 5)
ONE = file_of(some_words(200, 1))
TWO = file_of(some_words(253 + 100, 2))
ELEVEN = file_of(some_words(2783, 3))


def good(cases):
    """Files that are read: of 1, 2 and 11 blocks, and last blocks of 1, 2, 252 and 253 words."""
    for count in (1, 2, 252, 253, 254, 255, 505, 506, 507):
        cases.read(file_of(some_words(count, count)), count)
        cases.read(file_of(some_words(count, count)), count + 20)
    for file in (ONE, TWO, ELEVEN):
        cases.read(file, 2783)
    cases.read(file_of([65535] * 253), 253)
    cases.read(file_of([0] * 300), 300)


def each_byte(cases):
    """Every byte of a good block changed once: as it stands, and with the check made right again."""
    file = file_of(SMALL)
    for place in range(BLOCK):
        cases.read(changed(file, place, (file[place] + 1) % 256), 10)
    for place in range(BLOCK):
        cases.read(changed(file, place, (file[place] + 128) % 256), 10)
    for place in range(510):
        cases.read(resealed(changed(file, place, (file[place] + 1) % 256), 0), 10)


def each_set_of_refusals(cases):
    """Each refusal alone, each pair and each larger set: the lowest is given. The faults stand in different blocks."""
    for file, room in ((ONE, 200), (TWO, 353), (ELEVEN, 2783)):
        last = BLOCK * (len(file) // BLOCK - 1)
        for faults in itertools.product((False, True), repeat=4):
            made = file
            if faults[2]:
                made = with_pair(made, 0, 9)
            if faults[1]:
                made = changed(made, last + 100, made[last + 100] ^ 255)
            if faults[0]:
                made = made + b'\0'
            cases.read(made, room - 1 if faults[3] else room)


def sizes(cases):
    """Refusal 1 at every size around a block's, two blocks' and the largest file's."""
    twelve = ELEVEN + block(11, 253, some_words(253, 4))
    thirteen = twelve + block(12, 1, [1])
    for size in (0, 1, 2, 511, 512, 513, 1023, 1024, 1025, 5119, 5120, 5121, 5631, 5632, 5633, 6143, 6144, 6145, 6656):
        cases.read(thirteen[:size], 2800)
    cases.read(file_of(some_words(2784, 3)), 2800)


def rooms(cases):
    """Word buffers of every length around the file's."""
    for file, count in ((file_of([7]), 1), (ONE, 200), (TWO, 353), (file_of(some_words(253, 8)), 253), (ELEVEN, 2783)):
        for room in sorted({0, 1, 2} | set(range(max(0, count - 3), count + 4))):
            cases.read(file, room)


def fields(cases):
    """Refusal 3: numbers, use counts and unused words, each with right checks."""
    for file, count in ((ONE, 1), (TWO, 2), (ELEVEN, 11)):
        for k in sorted({0, 1, count - 2, count - 1} & set(range(count))):
            at = BLOCK * k
            for number in (0, 1, k + 1, k + 256, 65535):
                cases.read(with_pair(file, at, number), 2783)
            for used in (0, 1, 99, 100, 101, 199, 200, 201, 252, 253, 254, 255, 256, 509, 65535):
                cases.read(with_pair(file, at + 2, used), 2783)
    for place in (200, 201, 251, 252):
        for word in (1, 256, 65535):
            cases.read(with_pair(ONE, 4 + 2 * place, word), 2783)
    # only the use count is wrong: what it leaves unused is zero
    for used in (0, 1, 252):
        cases.read(block(0, used, some_words(used, 9)), 2783)
        cases.read(block(0, 253, some_words(253, 9)) + block(1, used, some_words(used, 10)), 2783)
        cases.read(block(0, used, some_words(used, 9)) + block(1, 5, some_words(5, 10)), 2783)
        cases.read(block(0, used, some_words(used, 9)) + block(1, 0, []), 2783)
    swapped = TWO[BLOCK:] + TWO[:BLOCK]
    cases.read(swapped, 2783)
    cases.read(TWO + TWO, 2783)
    cases.read(ONE + ONE, 2783)


def checks(cases):
    """Refusal 2: stored numbers that another rule would take, in each block of a file."""
    for file in (ONE, TWO, ELEVEN):
        for k in range(len(file) // BLOCK):
            at = BLOCK * k
            right = pair_at(file, at + 510)
            plain = sum((i + 1) * file[at + i] for i in range(510))
            flat = sum(file[at:at + 510])
            from_zero = sum(i * file[at + i] for i in range(510))
            for stored in sorted({right, (right + 1) % 65536, right * 256 % 65536 + right // 256, plain % 65536, plain % 65520,
                                  flat % 65521, from_zero % 65521}):
                cases.read(file[:at + 510] + pair(stored) + file[at + BLOCK:], 2783)
    # a block whose check is small: 65,521 more is the same modulo 65,521, and still another number
    small = next(file for file in (file_of([0] * 250 + [word]) for word in range(65536)) if pair_at(file, 510) < 15)
    cases.read(small, 251)
    cases.read(small[:510] + pair(pair_at(small, 510) + 65521), 251)


GROUPS = [good, each_byte, each_set_of_refusals, sizes, rooms, fields, checks]


def main():
    cases = Cases()
    for number, group in enumerate(GROUPS, 1):
        cases.group(number)
        group(cases)
    here = os.path.dirname(os.path.abspath(__file__))
    with open(os.path.join(here, 'stdin'), 'wb') as out:
        out.write(b''.join(cases.steps))
    with open(os.path.join(here, 'stdout'), 'w', encoding='ascii') as out:
        out.write('\n'.join(cases.lines) + '\n')


if __name__ == '__main__':
    main()
