"""Grammars for request (vi) of document 02, "Ticks after a controller restart", each with its answer by documents 01 and 02.

Word 0 alone tells which header stands there. expected.py holds each answer against its own check.
"""

# 64 -> 65 64; 64 -> 4 64; 64 -> empty; 65 -> 1 66 3; 66 -> 2 66; 66 -> 4 66; 66 -> empty
RULES = [(64, [65, 64]), (64, [4, 64]), (64, []), (65, [1, 66, 3]), (66, [2, 66]), (66, [4, 66]), (66, [])]


def longer(words, restart):
    """The words with the seven-word header."""
    return [words[0] + 256] + words[1:6] + [restart] + words[6:]


def put(words, place, word):
    return words[:place] + [word] + words[place + 1:]


def marks(words_of):
    """T 5 with marks 1 and 3, 2 and 2, and none: every restart mark up to T + 1, and some far beyond it."""
    for opening, closing in (1, 3), (3, 1), (2, 2), (0, 0):
        words = words_of(RULES, t=5, n=3, marks=(opening, closing))
        for m in list(range(7)) + [63, 64, 255, 256, 260, 261, 65535]:
            right = m == 0 or (m < 5 and m not in (opening, closing))
            yield longer(words, m), 0 if right else 5, f'marks {opening} {closing}, restart mark {m}'


def counts(words_of):
    """Every T by either header, and word 0 beside and beyond both."""
    for t in 1, 2, 63, 64:
        words = words_of([(64, [])], t=t)
        yield words, 0, f'T {t} in six words'
        yield longer(words, 0), 0, f'T {t} in seven words'
        yield longer(words, t - 1), 0, f'T {t}, restart mark T - 1'
        yield longer(words, t), 5, f'T {t}, restart mark T'
        yield put(longer(words, 0), 0, t), 5, f'seven words that claim to be six, T {t}'
        yield put(words, 0, t + 256), 5, f'six words that claim to be seven, T {t}'
    for t in 0, 65, 66, 128, 192, 255:
        words = words_of([(64, [])], t=t)
        yield words, 5, f'T {t} in six words'
        yield longer(words, 0), 5, f'T {t} in seven words'
    for first in 0, 65, 128, 255, 256, 321, 384, 512, 513, 518, 576, 65535:
        for words in words_of([(64, [])], t=6), longer(words_of([(64, [])], t=6), 0):
            yield put(words, 0, first), 5, f'word 0 of {first}'


def ranges(words_of):
    """Marks, symbols and the words of terminals go by T and not by word 0; the words behind word 6 by the longer header."""
    words = longer(words_of(RULES, t=5, n=3, marks=(1, 3)), 4)
    yield words, 0, 'grammar H with other costs'
    for place in 3, 4:
        yield put(words, place, 5), 5, f'word {place} of T'
        yield put(words, place, 260), 5, f'word {place} of word 0 less 1'
    yield put(words, len(words) - 4, 5), 5, 'symbol T in a rule'
    yield put(words, 7, 1), 5, 'a cost of END'
    yield put(words, 8, 1), 5, 'a reliability of END'
    for place in range(9, 17, 2):
        yield put(words, place, 0), 5, f'a cost of 0, terminal {(place - 7) // 2}'
        yield put(words, place, 1000), 0, f'a cost of 1,000, terminal {(place - 7) // 2}'
        yield put(words, place + 1, 60001), 5, f'a reliability of 60,001, terminal {(place - 7) // 2}'
    yield put(words, 5, 1), 0, 'unit 1'
    yield put(words, 5, 2), 5, 'unit 2'
    for size in range(len(words)):
        yield words[:size], 5, f'cut short to {size} words'
    yield words + [0], 5, 'a word behind the last rule'
    least = longer(words_of([(64, [])], t=1), 0)
    for size in range(len(least)):
        yield least[:size], 5, f'the least list cut short to {size} words'


def late(words_of):
    """Refusals 6 to 9 behind the longer header."""
    yield longer(words_of([(64, []), (65, [1])], n=2), 1), 6, 'not reachable'
    yield longer(words_of([(64, [64])]), 1), 7, 'no string'
    yield longer(words_of([(64, [65] * 8), (65, [1] * 8)], n=2, costs=[0, 938]), 1), 8, 'too costly'
    yield longer(words_of([(64, [65] * 8), (65, [1] * 8)], n=2, costs=[0, 937]), 1), 0, 'just not too costly'
    yield longer(words_of([(64, [1]), (64, [1])]), 1), 9, 'two equal rules'


def cases(words_of):
    for part in marks, counts, ranges, late:
        yield from part(words_of)
