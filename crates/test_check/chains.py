"""Grammars for request (v) of document 02, "Fewer rounds over the rules", each with its answer by document 01.

What makes the verdict is known late: by way of a long chain, by one rule out of 256, by a cost that falls several times. A check
that does not come back to some rule when a nonterminal that it mentions has changed gives another answer on some of them.
expected.py holds each answer against its own check.
"""
import random

START = 64
# The rules at both ends of each word of a table that has one bit for each of 256 rules.
EDGES = 0, 63, 64, 127, 128, 191, 192, 255


def numbered(rules, n):
    """The nonterminals as they are, and in the opposite order behind START."""
    yield 'down', rules
    other = {64: 64, **{64 + k: 64 + n - k for k in range(1, n)}}
    turned = [(other[left], [other.get(x, x) for x in right]) for left, right in rules]
    yield 'up', sorted(turned, key=lambda rule: rule[0])


def ordered(rules):
    """The rules as they are, backwards, and in some other order."""
    yield 'as written', rules
    yield 'backwards', rules[::-1]
    mixed = list(rules)
    random.Random(len(rules)).shuffle(mixed)
    yield 'mixed', mixed


# ---- Chains of 64 nonterminals

def long_chains():
    """Rules with N 64 and T 5, and the answer."""
    last = 127
    links = [(64 + k, [65 + k]) for k in range(63)]
    yield links + [(last, [1])], 0, 'a chain to a token'
    yield links + [(last, [])], 0, 'a chain to nothing at all'
    yield links, 7, 'a chain to a nonterminal without rules'
    yield links + [(last, [last])], 7, 'a chain to one that is itself'
    yield links + [(last, [1, last])], 7, 'a chain to one that goes on for ever'
    yield links + [(last, [START])], 7, 'a chain that comes back to START'
    yield links + [(last, [1, START]), (START, [2])], 0, 'a chain that derives a string by way of START'
    yield links + [(last, [1]), (START, [1])], 9, 'FIRST comes up the whole chain'
    yield links + [(last, [2]), (START, [1])], 0, 'another token comes up the whole chain'
    yield links + [(last, []), (START, [])], 9, 'a chain that can be empty, beside an empty rule'
    yield links + [(last, []), (START, [1])], 0, 'a chain that can be empty, beside a token'
    for gap in 0, 31, 62:
        broken = [(left, [1] if left == 64 + gap else right) for left, right in links]
        yield broken + [(last, [1])], 6, f'a chain that is reached no further than {64 + gap}'
        yield broken + [(last, [last])], 6, f'the same, and the last one is itself: {64 + gap}'
        behind = [(left, [3] + right if left == 64 + gap else right) for left, right in links]
        yield behind + [(last, [1]), (START, [1])], 0, f'FIRST comes up no further than {64 + gap}'
    follow = [(64 + k, [2, 65 + k]) for k in range(1, 63)]
    for gap in None, 1, 31, 62:
        rules = [(left, right + [3] if left == 64 + gap else right) for left, right in follow] if gap else follow
        told = 9 if gap is None else 0
        yield [(START, [65, 1])] + rules + [(last, [1]), (last, [])], told, f'FOLLOW goes down the chain, but for {gap}'


def lone_tails():
    """Chains of 30 in which each tail that can be empty is a nonterminal of its own, with N 62 and T 40."""
    for gap in None, 0, 14, 29:
        rules = [(START, [65, 1])]
        for k in range(30):
            tail = [3] if gap == k else [95 + k]
            rules.append((65 + k, [2, 66 + k if k < 29 else 125] + tail))
            rules += [(95 + k, [5 + k]), (95 + k, [])] if gap != k else [(95 + k, [5 + k]), (65 + k, [4, 95 + k])]
        rules += [(125, [1]), (125, [])]
        yield rules, 0 if gap is not None else 9, f'30 tails that can be empty, but for {gap}'


# ---- Short ones

def twice():
    """A nonterminal twice in one right side, and the answer; T 4."""
    yield [(64, [65, 65]), (65, [1])], 0, 'twice'
    yield [(64, [65, 65]), (65, [1]), (65, [])], 9, 'twice, and what can be empty follows itself'
    yield [(64, [65, 2, 65]), (65, [1]), (65, [])], 0, 'twice with a token between'
    yield [(64, [65, 2, 65, 1]), (65, [1]), (65, [])], 9, 'the second mention makes it shared'
    yield [(64, [65, 1, 65, 2]), (65, [1]), (65, [])], 9, 'the first mention makes it shared'
    yield [(64, [65, 2, 65, 3, 65]), (65, [66]), (66, [1]), (66, [])], 0, 'three times, through another'
    yield [(64, [65, 2, 65, 1, 65]), (65, [66]), (66, [1]), (66, [])], 9, 'three times, the middle one shared'
    yield [(64, [65, 65]), (65, [66, 66]), (66, [65]), (66, [1])], 9, 'twice and round'
    yield [(64, [65, 65]), (65, [66, 66]), (66, [65])], 7, 'twice and round without an end'


def own():
    """Rules that mention their own left side, and the answer; T 4."""
    yield [(64, [1, 64]), (64, [2])], 0, 'itself at the end'
    yield [(64, [1, 64, 64]), (64, [2])], 0, 'itself twice'
    yield [(64, [1, 64])], 7, 'itself alone'
    yield [(64, [65]), (65, [1, 65, 2]), (65, [])], 0, 'its own FOLLOW is another token'
    yield [(64, [65]), (65, [1, 65, 1]), (65, [])], 9, 'its own FOLLOW is its token'
    yield [(64, [65]), (65, [1, 65, 66]), (65, []), (66, [1])], 9, 'its own FOLLOW by way of another'
    yield [(64, [65]), (65, [1, 65, 66]), (65, []), (66, [2])], 0, 'the same with another token'
    yield [(64, [65]), (65, [1, 65, 66]), (65, []), (66, [2]), (66, [])], 9, 'a tail that follows itself by way of its left side'
    yield [(64, [65, 1]), (65, [65, 2]), (65, [])], 9, 'itself at the beginning, and empty'
    yield [(64, [65]), (65, [65, 2]), (65, [3])], 9, 'itself at the beginning'
    yield [(64, [65]), (65, [66, 65, 2]), (65, [3]), (66, [1]), (66, [])], 9, 'itself behind what can be empty'
    yield [(64, [65]), (65, [66, 65, 2]), (65, [3]), (66, [1])], 0, 'itself behind a token of another'
    yield [(64, [65, 2]), (65, [1, 66]), (66, [3, 65]), (66, [])], 0, 'two round, with another token behind'
    yield [(64, [65, 3]), (65, [1, 66]), (66, [3, 65]), (66, [])], 9, 'two round, with their token behind'
    yield [(64, [1, 65]), (64, [2]), (65, [66]), (66, [64])], 0, 'a string by way of START alone'
    yield [(64, [1, 65]), (65, [66]), (66, [64])], 7, 'round by way of START'
    yield [(64, [1, 65]), (64, []), (65, [66]), (66, [64, 3])], 0, 'START followed by a token'
    yield [(64, [1, 65]), (64, []), (65, [66]), (66, [64, 1])], 9, 'START followed by its own'
    yield [(64, [2, 65]), (64, [3, 64, 1]), (65, [1]), (65, [])], 9, 'FOLLOW of START grows behind the rule that passes it on'
    yield [(64, [2, 65]), (64, [3, 64, 2]), (65, [1]), (65, [])], 0, 'the same with another token'
    yield [(65, [3, 64]), (64, [2, 65, 1]), (64, [1]), (64, [])], 9, 'FOLLOW of START by that of another, which grows later'
    yield [(65, [3, 64]), (64, [2, 65, 3]), (64, [1]), (64, [])], 0, 'the same with another token'
    yield [(65, [2, 65, 3, 66]), (65, [1]), (66, [1]), (66, []), (64, [65, 1])], 9, 'a rule with itself passes on a FOLLOW that grows later'
    yield [(65, [2, 65, 3, 66]), (65, [1]), (66, [1]), (66, []), (64, [65, 2])], 0, 'the same with another token'


# ---- Costs

def costing(cost, free, rules, costs):
    """Adds rules and terminals so that the symbols given back cost `cost`. 127 is eight tokens of 1,000."""
    right = [1] * (cost % 8000 // 1000)
    if cost % 1000:
        costs.append(cost % 1000)
        right.append(len(costs) - 1)
    rules.append((free, right))
    return [127] * (cost // 8000) + [free]


def falling(ways, above, pad, endless=False):
    """Rules and costs. A chain of `above`, each `pad` dearer than the next, stands over a nonterminal that has a rule for each way,
    (depth, cost): a token, then two parts that cost the rest, each `depth` single rules deep."""
    rules, costs, free = [(START, [66]), (START, [2, 127]), (127, [1] * 8)], [0, 1000, 1], 66
    for _ in range(above):
        costs.append(pad or 1)
        rules.append((free, [free + 1] + [len(costs) - 1] * (pad > 0)))
        free += 1
    fallen, free = free, free + 1
    for depth, cost in ways:
        costs.append(1)
        right = [len(costs) - 1]
        for part in (cost - 1) // 2, cost - 1 - (cost - 1) // 2:
            right.append(free)
            for _ in range(depth):
                rules.append((free, [free + 1]))
                free += 1
            rules.append((free, costing(part, free + 1, rules, costs)))
            free += 2
        rules.append((fallen, right))
    # 65 is whatever is left: a token, or nothing that ends.
    rules += [(START, [len(costs), 65]), (65, [65] if endless else [2])]
    costs.append(1)
    # As many nonterminals as there are: the others are reached by 65's token.
    for k in range(free, 127):
        rules += [(START, [k]), (k, [len(costs)])]
        costs.append(1)
    return rules, costs


def costly():
    """Ways, chain and pad, whether 65 never ends, and the answer."""
    yield [(1, 70000), (3, 65536), (4, 60000)], 6, 0, False, 0
    yield [(1, 70000), (3, 65536), (4, 60001)], 6, 0, False, 8
    yield [(4, 60000), (3, 65536), (1, 70000)], 6, 0, False, 0
    yield [(4, 60001), (3, 65536), (1, 70000)], 6, 0, False, 8
    yield [(1, 60001), (4, 60000)], 10, 0, False, 0
    yield [(1, 60002), (4, 60001)], 10, 0, False, 8
    yield [(0, 120000), (2, 90000), (4, 59994)], 6, 1, False, 0
    yield [(0, 120000), (2, 90000), (4, 59995)], 6, 1, False, 8
    yield [(1, 60010), (4, 59000)], 10, 100, False, 0
    yield [(1, 60010), (4, 59001)], 10, 100, False, 8
    yield [(1, 65536 + 300), (4, 300)], 10, 0, False, 0
    yield [(1, 70000), (3, 65536), (4, 60001)], 6, 0, True, 7
    yield [(1, 70000), (3, 65536), (4, 60000)], 6, 0, True, 7


def doubling(n):
    """Each nonterminal is the next one twice."""
    return [(64 + k, [65 + k] * 2) for k in range(n - 1)] + [(63 + n, [1])]


# ---- One rule of 256

def one_of_256(kind, place, whole):
    """256 rules with T 64 and N 16, whose verdict hangs on the rule at this place, the whole one or another.

    65 needs 66 by that rule, 66 needs 67, 67 needs 68; these stand at places to and fro, so that in each order much is known late.
    START also has a rule for 69, and 69 to 73 have all rules but the few."""
    at = {20: (START, [3, 69]), 21: (69, [60, 70]), 22: (70, [60, 71]), 23: (71, [60, 72]), 24: (72, [60, 73]),
          25: (START, [61, 74]), 26: (74, [60, 75]), 27: (75, [60, 76]), 28: (76, [60, 77]), 29: (77, [60, 78]), 30: (78, [60, 79]),
          31: (79, [60, 60])}
    at |= {7: (START, [4, 66]), 249: (66, [67, 1]), 5: (67, [68, 1]), 250: (68, [2, 1])}
    if kind == 'string':
        at |= {6: (START, [65, 1])}
        key = (65, [66 if whole else 65, 1])
        told = 0 if whole else 7
    elif kind == 'reached':
        at |= {6: (START, [62, 65]), 7: (START, [4, 1]), 249: (66, [1, 67]), 5: (67, [1, 68])}
        key = (65, [1, 66 if whole else 1])
        told = 0 if whole else 6
    elif kind == 'cost':
        # 74 costs 8 x 7,500 = 60,000, and 79 as much as it did.
        at |= {6: (START, [65, 1]), 8: (65, [5, 74]), 25: (START, [61, 79]), 26: (74, [75] * 8), 27: (75, [76] * 5), 28: (76, [77, 78]),
               29: (77, [59, 59]), 30: (78, [58, 58])}
        key = (65, [66, 1] if whole else [74, 1])
        told = 0 if whole else 8
    elif kind == 'empty':
        # 68 is nothing but empty, so that 67, 66 and 65 can be.
        at |= {6: (START, [65, 2]), 8: (START, [2, 2]), 249: (66, [67, 67]), 5: (67, [68, 68]), 250: (68, [])}
        key = (65, [66, 66] if whole else [66, 62])
        told = 9 if whole else 0
    elif kind == 'first':
        at |= {6: (START, [65, 1]), 8: (START, [2, 2])}
        key = (65, [66, 1] if whole else [62, 66])
        told = 9 if whole else 0
    else:
        at |= {6: (START, [65, 9]), 7: (START, [4, 1]), 249: (66, [7, 67]), 5: (67, [7, 68]), 250: (68, [9, 1]), 251: (68, [])}
        key = (65, [7, 66] if whole else [66, 7])
        told = 9 if whole else 0
    at[place] = key
    rules = [at.get(p, (69 + p % 5, [1 + p // 5, 1])) for p in range(256)]
    return rules, told


# ---- All of them

def cases(words_of):
    """Each case with its answer and its name."""
    for rules, told, name in long_chains():
        for numbers, turned in numbered(rules, 64):
            yield words_of(turned, t=5, n=64), told, f'{name}, {numbers}'
        yield words_of(rules[::-1], t=5, n=64), told, f'{name}, backwards'
    for rules, told, name in lone_tails():
        for order, turned in ordered(rules):
            yield words_of(turned, t=40, n=62), told, f'{name}, {order}'
    for rules, told, name in [*twice(), *own()]:
        n = max(left for left, _ in rules) - 63
        yield words_of(rules, t=4, n=n), told, name
        yield words_of(rules[::-1], t=4, n=n), told, f'{name}, backwards'
    for ways, above, pad, endless, told in costly():
        rules, costs = falling(ways, above, pad, endless)
        for order, turned in ordered(rules):
            yield words_of(turned, t=len(costs), n=64, costs=costs), told, f'{ways} below {above} of {pad}, {order}'
    for n, told in (16, 0), (17, 8), (64, 8):
        for numbers, turned in numbered(doubling(n), n):
            yield words_of(turned, n=n), told, f'{n} doubled, {numbers}'
    costs = [0] + [1] * 57 + [375] * 2 + [1] * 4
    for kind in 'string', 'reached', 'cost', 'empty', 'first', 'follow':
        for whole in True, False:
            for place in EDGES:
                rules, told = one_of_256(kind, place, whole)
                yield words_of(rules, t=64, n=16, costs=costs), told, f'{kind} by rule {place}: {whole}'
