#!/usr/bin/env python3
"""Makes `stdin` and `stdout` of this program, from documents 01 and 02 alone: its own grammars, its own check.

Run it in this folder:  python3 expected.py
It uses nothing of the Rattle code. src/main.rt says what a step of the input is and what is printed.
Each named case has its answer written beside it; the check below, by the textbook's sets, must agree with every one. Those for request
(v) of document 02 stand in chains.py, those for request (vi) in restarts.py.
"""
import os
import random
import sys

sys.dont_write_bytecode = True
import chains
import restarts

END, START = 0, 64


# ---- The check of document 01, with request (vi) of 02

def shaped(words):
    """The rules as (left, right side) and the costs, or None where the words break the shape."""
    def word(i):
        if i >= len(words):
            raise IndexError
        return words[i]
    try:
        first, n_count, p_count, opening, closing, unit = (word(i) for i in range(6))
        seven = 257 <= first <= 320
        t_count, header = (first - 256, 7) if seven else (first, 6)
        if not (1 <= t_count <= 64 and 1 <= n_count <= 64 and 1 <= p_count <= 256 and unit <= 1):
            return None
        marked = 1 <= opening < t_count and 1 <= closing < t_count
        if not (marked or (opening == 0 and closing == 0)):
            return None
        restart = word(6) if seven else 0
        if restart != 0 and (restart >= t_count or restart in (opening, closing)):
            return None
        costs = []
        for t in range(t_count):
            cost, reliability = word(header + 2 * t), word(header + 2 * t + 1)
            if t == END and (cost, reliability) != (0, 0):
                return None
            if t != END and not (1 <= cost <= 1000 and reliability <= 60000):
                return None
            costs.append(cost)
        at, rules = header + 2 * t_count, []
        for _ in range(p_count):
            left, size = word(at), word(at + 1)
            if left >= n_count or size > 8:
                return None
            right = [word(at + 2 + i) for i in range(size)]
            if any(not (1 <= x < t_count or 64 <= x < 64 + n_count) for x in right):
                return None
            rules.append((64 + left, right))
            at += 2 + size
    except IndexError:
        return None
    if at != len(words):
        return None
    return n_count, costs, rules


def grow(start, more):
    """The least set that holds `start` and all that `more` finds from it."""
    found = set(start)
    while True:
        new = more(found) - found
        if not new:
            return found
        found |= new


def answer(words):
    """0 for accepted, else the lowest refusal of 5 to 9 that applies."""
    grammar = shaped(words)
    if grammar is None:
        return 5
    n_count, costs, rules = grammar
    everything = set(range(64, 64 + n_count))
    if grow({START}, lambda s: {x for left, right in rules if left in s for x in right if x >= 64}) != everything:
        return 6
    if grow(set(), lambda s: {left for left, right in rules if all(x < 64 or x in s for x in right)}) != everything:
        return 7
    cheapest = {}
    for _ in range(n_count):
        for left, right in rules:
            if all(x < 64 or x in cheapest for x in right):
                cost = sum(costs[x] if x < 64 else cheapest[x] for x in right)
                cheapest[left] = min(cost, cheapest.get(left, cost))
    if max(cheapest.values()) > 60000:
        return 8
    empty = grow(set(), lambda s: {left for left, right in rules if all(x in s for x in right)})

    def tokens_of(pairs):
        """The tokens that stand in a pair with each nonterminal."""
        tokens = {k: set() for k in everything}
        for k, t in pairs:
            tokens[k].add(t)
        return tokens

    def begins(firsts, right):
        tokens = set()
        for x in right:
            tokens |= {x} if x < 64 else firsts[x]
            if x not in empty:
                break
        return tokens

    def first_pairs(pairs):
        firsts = tokens_of(pairs)
        return {(left, t) for left, right in rules for t in begins(firsts, right)}

    firsts = tokens_of(grow(set(), first_pairs))

    def follow_pairs(pairs):
        found, follows = set(), tokens_of(pairs)
        for left, right in rules:
            for i, x in enumerate(right):
                if x >= 64:
                    rest = right[i + 1:]
                    found |= {(x, t) for t in begins(firsts, rest)}
                    if all(y in empty for y in rest):
                        found |= {(x, t) for t in follows[left]}
        return found

    follows = tokens_of(grow({(START, END)}, follow_pairs))
    seen = set()
    for left, right in rules:
        predict = begins(firsts, right)
        if all(x in empty for x in right):
            predict |= follows[left]
        if any((left, t) in seen for t in predict):
            return 9
        seen |= {(left, t) for t in predict}
    return 0


# ---- Words of grammars

def words_of(rules, t=2, n=1, p=None, marks=(0, 0), unit=0, costs=None, reliabilities=None):
    """Words of the rules (left, right side). What the cases do not say: T is 2, N is 1, each cost 1, the rest 0."""
    costs = costs or [0] + [1] * (t - 1)
    reliabilities = reliabilities or [0] * t
    words = [t, n, len(rules) if p is None else p, marks[0], marks[1], unit]
    for cost, reliability in zip(costs, reliabilities):
        words += [cost, reliability]
    for left, right in rules:
        words += [left - 64, len(right)] + right
    return words


G = words_of(
    [(64, [65, 64]), (64, []), (65, [1, 66, 4]), (66, [2, 67, 3]), (67, [5, 6]), (67, [])],
    t=7, n=4, marks=(1, 4), costs=[0, 20, 3, 5, 4, 3, 3], reliabilities=[0, 60, 9, 15, 40, 2, 2])


def eights(cost):
    """START is eight of 65, and 65 is eight tokens of this cost."""
    return words_of([(64, [65] * 8), (65, [1] * 8)], n=2, costs=[0, cost])


def chain(n):
    """N nonterminals, each of which is the next but for the last, which is a token."""
    return words_of([(64 + k, [65 + k]) for k in range(n - 1)] + [(63 + n, [1])], n=n)


def spread(p, size=1):
    """P rules with 64 terminals: each of 64 nonterminals has up to four rules, told apart by their first token."""
    rules = []
    for i in range(p):
        k, j = i % 64, i // 64
        right = [4 * (k % 15) + j + 1] + ([64 + (k + 1) % 64] if j == 0 and k < 63 else [])
        right += [63] * (size - len(right))
        rules.append((64 + k, right))
    return words_of(rules, t=64, n=64)


def put(words, place, word):
    return words[:place] + [word] + words[place + 1:]


def named():
    """Each case with its answer by document 01."""
    one = words_of([(64, [1])])
    empty = words_of([(64, [])])
    full = spread(256, 8)
    yield G, 0, 'bench grammar G'
    yield words_of([(64, [64, 1]), (64, [])]), 9, 'case 9'
    yield words_of([(64, [64])]), 7, 'case 10'
    yield words_of([(64, []), (65, [1])], n=2), 6, 'case 11'
    yield empty, 0, 'the grammar of case 12'
    yield eights(937), 0, 'cost 937: START costs 59,968'
    yield eights(938), 8, 'cost 938: START costs 60,032'
    yield words_of([(64, [65] * 8), (65, [66] * 5), (66, [1, 1])], n=3, costs=[0, 750]), 0, 'a cost of exactly 60,000'
    yield words_of([(64, [65] * 8), (65, [66] * 5), (66, [1, 1])], n=3, costs=[0, 751]), 8, 'a cost of 60,080'
    cheap = [(64, [1, 65]), (64, []), (65, [66] * 8), (66, [2] * 8)]
    yield words_of(cheap, t=3, n=3, costs=[0, 1, 937]), 0, 'START costs 0, another nonterminal 59,968'
    yield words_of(cheap, t=3, n=3, costs=[0, 1, 938]), 8, 'START costs 0, another nonterminal 60,032'
    yield words_of([(64, [])], t=1), 0, 'T 1: END alone'
    yield put(words_of([(64, [])], t=1), 0, 0), 5, 'T 0'
    yield words_of([(64, [63])], t=64), 0, 'T 64'
    yield words_of([(64, [63])], t=65), 5, 'T 65'
    yield chain(64), 0, 'N 64'
    yield put(one, 1, 0), 5, 'N 0'
    yield words_of([(64, [1])], n=65), 5, 'N 65'
    yield spread(256), 0, 'P 256'
    yield words_of([(64, [1])] * 257), 5, 'P 257'
    yield put(one, 2, 0), 5, 'P 0'
    yield words_of([], p=0), 5, 'P 0 and no rule'
    yield full, 0, 'the longest list with a six-word header: 2,694 words'
    yield restarts.longer(full, 63), 0, 'the longest list: 2,695 words'
    yield restarts.longer(full, 63) + [0], 5, 'the longest list and a word behind it'
    yield full + [0], 5, 'the longest list with a six-word header and a word behind it'
    yield put(full, 2694 - 9, 9), 5, 'the longest list with a six-word header, its last rule 9 long'
    yield put(one, 3, 1), 5, 'an opening mark without a closing one'
    yield put(one, 4, 1), 5, 'a closing mark without an opening one'
    yield put(put(one, 3, 1), 4, 1), 0, 'equal marks'
    yield put(put(one, 3, 2), 4, 1), 5, 'an opening mark of T'
    yield put(put(one, 3, 1), 4, 2), 5, 'a closing mark of T'
    yield put(one, 5, 1), 0, 'unit 1'
    yield put(one, 5, 2), 5, 'unit 2'
    yield put(one, 6, 1), 5, 'a cost of END'
    yield put(one, 7, 1), 5, 'a reliability of END'
    yield put(one, 8, 0), 5, 'a cost of 0'
    yield put(one, 8, 1000), 0, 'a cost of 1,000'
    yield put(one, 8, 1001), 5, 'a cost of 1,001'
    yield put(one, 9, 60000), 0, 'a reliability of 60,000'
    yield put(one, 9, 60001), 5, 'a reliability of 60,001'
    yield put(one, 10, 1), 5, 'a left side of N'
    yield words_of([(64, [1] * 8)]), 0, 'a right side of 8'
    yield words_of([(64, [1] * 9)]), 5, 'a right side of 9'
    yield put(one, 12, 0), 5, 'END in a rule'
    yield put(one, 12, 2), 5, 'symbol T'
    yield put(one, 12, 63), 5, 'symbol 63 where T is 2'
    yield put(one, 12, 65), 5, 'symbol 64 + N'
    yield put(one, 12, 65535), 5, 'symbol 65,535'
    yield [], 5, 'no words'
    for size in range(1, len(one)):
        yield one[:size], 5, f'cut short to {size} words'
    yield one + [0], 5, 'a word behind the last rule'
    yield one + one, 5, 'a grammar behind the last rule'
    yield words_of([(64, [1])], n=2), 6, 'a nonterminal without rules that nothing names'
    yield words_of([(64, [65])], n=2), 7, 'a nonterminal without rules that START needs'
    yield words_of([(64, [1]), (64, [65])], t=3, n=2), 7, 'a nonterminal without rules that START may take'
    yield words_of([(64, [1]), (64, [1])]), 9, 'two equal rules'
    yield words_of([(64, []), (64, [])]), 9, 'two equal empty rules'
    yield words_of([(64, []), (64, [65]), (65, [])], n=2), 9, 'two rules that share END alone'
    yield words_of([(64, [65, 1]), (65, [1]), (65, [])], n=2), 9, 'FIRST and FOLLOW share a token'
    yield words_of([(64, [65, 2]), (65, [1]), (65, [])], t=3, n=2), 0, 'FIRST and FOLLOW apart'
    yield words_of([(64, [65, 66, 1]), (65, []), (65, [2]), (66, []), (66, [2])], t=3, n=3), 9, 'FOLLOW past an empty symbol'
    yield words_of([(64, [65, 66]), (65, [1]), (66, [2, 66]), (66, [])], t=3, n=3), 0, 'FOLLOW by the left side'
    yield words_of([(64, [65]), (65, [66]), (66, [64]), (66, [1])], n=3), 9, 'a circle with a way out: left recursion shares a token'
    yield words_of([(64, [65, 64]), (65, [64, 65])], n=2), 7, 'a circle without one'
    yield words_of([(64, [64]), (65, [65])], n=2), 6, 'refusals 6 and 7 apply: 6'
    yield words_of([(64, [64]), (64, [64])]), 7, 'refusals 7 and 9 apply: 7'
    yield words_of([(64, [65] * 8), (64, [65] * 8), (65, [1] * 8)], n=2, costs=[0, 938]), 8, 'refusals 8 and 9 apply: 8'
    yield words_of([(64, [65] * 8), (65, [1] * 8), (66, [1])], n=3, costs=[0, 938]), 6, 'refusals 6 and 8 apply: 6'


def found(count):
    """Small grammars by chance, of every verdict but 5: the answers are those of the check above."""
    chance = random.Random(937)
    left = {0: count, 6: count, 7: count, 8: count, 9: count}
    for _ in range(20000):
        if chance.random() < 0.1:
            rules = [(64, [65] * 8), (65, [chance.randint(1, 5) for _ in range(8)])]
            words = words_of(rules, t=6, n=2, costs=[0] + [chance.randint(900, 970) for _ in range(5)])
        else:
            t, n = chance.randint(1, 6), chance.randint(1, 4)
            symbols = list(range(1, t)) + list(range(64, 64 + n))
            rules = [(64 + chance.randrange(n), [chance.choice(symbols) for _ in range(chance.randint(0, 3))])
                     for _ in range(chance.randint(n, 2 * n + 1))]
            words = words_of(rules, t=t, n=n)
        told = answer(words)
        if left.get(told, 0):
            left[told] -= 1
            yield words, told
    assert not any(left.values()), left


def main():
    here = os.path.dirname(os.path.abspath(__file__))
    assert len(spread(256, 8)) == 2694 and len(restarts.longer(spread(256, 8), 63)) == 2695
    cases = []
    for words, told, name in named():
        assert answer(words) == told, (name, answer(words))
        cases.append((words, told))
    cases += list(found(20))
    for part in chains, restarts:
        for words, told, name in part.cases(words_of):
            assert answer(words) == told, (name, answer(words))
            cases.append((words, told))
    held, steps, lines = [0] * 4096, [], []
    for number, (words, told) in enumerate(cases):
        for place, word in enumerate(words):
            if held[place] != word:
                held[place] = word
                steps.append((0, place, word))
        steps.append((1, len(words), number))
        lines.append(f'case {number} accepted' if told == 0 else f'case {number} refused {told}')
    with open(os.path.join(here, 'stdin'), 'wb') as f:
        for step in steps:
            for value in step:
                f.write(bytes([value % 256, value // 256]))
    with open(os.path.join(here, 'stdout'), 'w', encoding='ascii') as f:
        f.write('\n'.join(lines) + '\n')


if __name__ == '__main__':
    main()
