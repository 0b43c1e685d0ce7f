"""The lookups by which the benches compare what caches evict, and how many of them hit.

Of 100,000 keys, number n is drawn in proportion to 1 / n ** skew (Zipf).

- plain: nothing else.
- scans: after every ten lookups an item come as many fresh keys as items, which are never asked for again, and don't count.
- shifts: after each tenth of the lookups half of the keys change their numbers.
- news: each fourth lookup brings a new key, and keys are drawn by their age.

Hits are counted in percent, the first tenth of the lookups left out.
"""
import array
import itertools
import random
import subprocess

KEYS = 100_000
# Keys from here on are never asked for again.
FRESH = 10 ** 9
SKEWS, SIZES = (0.7, 0.99), (KEYS // 100, KEYS // 10)


def weights(skew):
    return list(itertools.accumulate(1 / n ** skew for n in range(1, KEYS + 1)))


def plain(skew, _, lookups):
    return random.Random(1).choices(range(KEYS), cum_weights=weights(skew), k=lookups)


def scans(skew, items, lookups):
    fresh = itertools.count(FRESH)
    for number, key in enumerate(plain(skew, items, lookups)):
        yield key
        if number % (10 * items) == 10 * items - 1:
            yield from itertools.islice(fresh, items)


def shifts(skew, _, lookups):
    drawn, names = random.Random(2), list(range(KEYS))
    for _ in range(10):
        yield from (names[key] for key in drawn.choices(range(KEYS), cum_weights=weights(skew), k=lookups // 10))
        moved = drawn.sample(range(KEYS), KEYS // 2)
        new = [names[place] for place in moved]
        drawn.shuffle(new)
        for place, name in zip(moved, new):
            names[place] = name


def news(skew, _, lookups):
    """Keys that are older than the first lookup are negative."""
    ages = random.Random(3).choices(range(KEYS), cum_weights=weights(skew), k=lookups)
    return (number // 4 - age for number, age in enumerate(ages))


CASES = [*itertools.product((plain, scans, shifts), SKEWS, SIZES), *((news, 1.1, items) for items in SIZES)]


def cases(lookups):
    """How the row of each case begins, its items and its keys."""
    for make, skew, items in CASES:
        yield f'|{make.__name__}|{skew}|{items}|', items, list(make(skew, items, lookups))


def ratio(keys, hits):
    """The hits in percent, of the lookups that count."""
    skipped = len(keys) // 10
    counted = [hit for key, hit in zip(keys[skipped:], hits[skipped:]) if key < FRESH]
    return 100 * sum(counted) / len(counted)


def of_model(model, keys):
    return ratio(keys, [model.look_up(key) for key in keys])


def hits_of_program(words, keys):
    """Of a program that reads the keys as words of 64 bits, and prints a line of 0 and 1."""
    told = subprocess.run(words, input=array.array('q', keys).tobytes(), capture_output=True, check=True)
    return [letter == ord('1') for letter in told.stdout.strip()]


def of_program(words, keys):
    return ratio(keys, hits_of_program(words, keys))
