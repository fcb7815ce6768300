#!/usr/bin/env python3
"""compare.py [--dribble] PROGRAM
compare.py --show K

Draws some thousands of jobs from a fixed seed, runs PROGRAM (arguments may follow in the same word)
on each and compares what it writes, byte for byte, with second.py's answer. --dribble takes some of
the jobs only and sends them through the pipe in pieces. --show writes job K, to run it alone.
Last line: `N passed, M failed`.
"""
import collections
import itertools
import random
import re
import sys

import harness
import roots
import second

SMALL_PRIMES = [p for p in range(257, 1100) if second.is_prime(p)]
LARGE_PRIMES = [65521, 65537, 10000139, 1073741789, 2147483587, 2147483629, 2147483647]
BAD_MODULI = [0, 1, 2, 3, 251, 255, 256, 2147483648, 2147483659, 4294967291, 4294967295]
COMPOSITES = [258, 259, 289, 561, 1105, 1729, 2047, 65535, 65536, 66049, 1373653, 25326001, 2147117569,
              2147483645, 2147483646]
BAD_WEIGHTS = [0, 17, -17, 18, 255, 256, 257, -256, 998, 999, -999]
ODD_NUMBERS = [
    '', '0', '00', '01', '-0', '-01', '+1', '--1', '-', '1-', ' 1', '1 ', '1.0', '0x1', '1e2', '\t1', '1_0',
    '999', '-999', '1000', '-1000', '-1', '-16', '-17', '4294967295', '4294967296', '4294967297',
    '4294967298', '4294967300', '4294967553', '8589934592', '9999999999', '10000000000', '18446744073709551615',
    '18446744073709551616', '18446744073709551617', '18446744073709551618', '18446744073709551873',
    '340282366920938463463374607431768211713', '\u0661', '\uff11', '1' * 400, '0' * 400 + '1', '1\x00', '1,',
    ',1', '1,,1', '1;1', '1\n', '\r1']


def text_of(modulus, coeffs, weights, degree=None):
    return ('modulus=%s\ndegree=%s\ncoeffs=%s\nweights=%s\n' % (
        modulus, len(coeffs) if degree is None else degree, ','.join(map(str, coeffs)),
        ','.join(map(str, weights)))).encode()


# Jobs in numbers

def partitions(total, largest):
    """How often the different weights of a list may occur, most frequent first."""
    if total == 0:
        yield ()
    for first in range(min(total, largest), 0, -1):
        for rest in partitions(total - first, first):
            yield (first,) + rest


def spread(repeats, kinds):
    return [kind for times, kind in zip(repeats, kinds) for _ in range(times)]


# Each degree with each way in which weights can repeat, and the number of placements
SHAPES = [(n, repeats, second.placement_count(n, spread(repeats, range(1, 7))))
          for n in range(1, 13) for r in range(1, min(n, 6) + 1) for repeats in partitions(r, r)]
SMALL_SHAPES = [shape for shape in SHAPES if shape[2] < 60]


def draw_weights(rng, repeats):
    """Half of the lists have near weights, so that sums meet other weights, or 0."""
    reach = rng.choice([3, 16])
    kinds = rng.sample([w for w in range(-reach, reach + 1) if w], len(repeats))
    weights = spread(repeats, kinds)
    rng.shuffle(weights)
    return weights


def draw_coeffs(rng, p, n):
    kind = rng.randrange(8)
    if kind < 3:
        return [rng.randrange(p) for _ in range(n)]
    if kind == 3:
        return [rng.choice([0, 0, 0, 1, p - 1, rng.randrange(p)]) for _ in range(n)]
    if kind == 4:
        return [p - 1] * n
    if kind == 5:
        half = [1] + (draw_coeffs(rng, p, n // 2) if n > 1 else [])
        rest = [1] + [rng.randrange(p) for _ in range(n % 2)]
        return product(p, product(p, half, half), rest)[1:]
    pool = [rng.randrange(p) for _ in range(n if kind == 6 else rng.randrange(1, 4))]
    return roots.Ring(p, [0]).product_over([[rng.choice(pool)] for _ in range(n)])


def product(p, a, b):
    result = [0] * (len(a) + len(b) - 1)
    for (i, x), (j, y) in itertools.product(enumerate(a), enumerate(b)):
        result[i + j] = (result[i + j] + x * y) % p
    return result


def answered(rng):
    """Every shape that can be answered, the large ones less often."""
    for n, repeats, count in SHAPES:
        for _ in range(0 if count > 1024 else 5 if count > 300 else 12 if count > 100 else 20):
            small = [p for p in SMALL_PRIMES if p > count]
            p = rng.choice(small) if small and rng.random() < 0.5 else rng.choice(LARGE_PRIMES)
            yield text_of(p, draw_coeffs(rng, p, n), draw_weights(rng, repeats))


def too_many(rng):
    """Shapes with too many placements, at all (row 9) or for the modulus (row 10)."""
    for n, repeats, count in SHAPES:
        small = [p for p in SMALL_PRIMES if p < count]
        if small:
            p = rng.choice(small)
            yield text_of(p, draw_coeffs(rng, p, n), draw_weights(rng, repeats))


def sweeps(rng):
    """One thing at a time through its edges."""
    for p in itertools.chain(range(240, 300), range(2147483560, 2147483660), BAD_MODULI, COMPOSITES):
        yield text_of(p, [rng.randrange(100)], [rng.choice([1, -1])])
    for n in range(66):
        yield text_of(257, [rng.randrange(257) for _ in range(n)], [1])
        yield text_of(1009, [rng.randrange(1009) for _ in range(12)], [5] * n)
        yield text_of(257, [1, 2, 3], [1, 1], degree=n)
    for weight in range(-20, 21):
        yield text_of(257, [3, 5], [weight])
        yield text_of(257, [3, 5], [1, weight])
    for c in list(range(250, 262)) + [4294967295]:
        yield text_of(257, [c], [1])
        yield text_of(257, [0, 1, c], [1, 2])
    for number in ODD_NUMBERS:
        yield text_of(number, [1, 2], [1, 1])
        yield text_of(257, [1, 2], [1, 1], degree=number)
        yield text_of(257, [1, number], [1, 1])
        yield text_of(257, [number, 2], [1, 1])
        yield text_of(257, [1, 2], [number, 1])
        yield text_of(257, [1, 2], [1, number])
    for length in range(64, 66):
        yield text_of(4294967295, [4294967295] * length, [-999] * length)


def broken(rng):
    """One to three of the rules 2 to 10 broken; every pair occurs."""
    rows = range(2, 11)
    choices = [chosen for k in (1, 2, 3) for chosen in itertools.combinations(rows, k)]
    for chosen in choices + [chosen for chosen in choices if len(chosen) < 3] * 4:
        yield text_of(*break_rules(rng, chosen))


def break_rules(rng, rows):
    p = rng.choice(SMALL_PRIMES + LARGE_PRIMES)
    p = rng.choice(BAD_MODULI) if 2 in rows else rng.choice(COMPOSITES) if 3 in rows else p
    n, repeats, _ = rng.choice(SMALL_SHAPES)
    if 9 in rows:
        n, repeats, _ = rng.choice([shape for shape in SHAPES if shape[2] > 1024])
    if 10 in rows:
        n, repeats, count = rng.choice([shape for shape in SHAPES if 300 < shape[2]])
        if not {2, 3} & set(rows):
            p = rng.choice([q for q in SMALL_PRIMES if q < count])
    weights = draw_weights(rng, repeats)
    if 4 in rows:
        n = rng.choice([13, 14, 20, 63, 64])
    if 6 in rows:
        weights = [rng.choice([1, 2, -16]) for _ in range(rng.choice([7, 8, 9, 63, 64]))]
    if 7 in rows:
        n = rng.randrange(1, 6)
        weights += [rng.choice([1, 2, -16]) for _ in range(n + 1 - len(weights))]
    coeffs = [rng.randrange(max(p, 1)) for _ in range(n)]
    if 5 in rows:
        coeffs[rng.randrange(n)] = rng.choice([p, min(p + 1, 4294967295), 4294967295])
    if 8 in rows:
        weights[rng.randrange(len(weights))] = rng.choice(BAD_WEIGHTS)
    return p, coeffs, weights


# Jobs in bytes

def small_job(rng):
    if rng.random() < 0.2:
        return text_of(*break_rules(rng, rng.sample(range(2, 11), 2)))
    n, repeats, _ = rng.choice(SMALL_SHAPES)
    p = rng.choice(SMALL_PRIMES + LARGE_PRIMES)
    return text_of(p, draw_coeffs(rng, p, n), draw_weights(rng, repeats))


def damaged(rng):
    for damage in DAMAGES:
        for _ in range(60):
            yield damage(rng, small_job(rng))
    for _ in range(200):
        one, other = rng.sample(DAMAGES, 2)
        yield other(rng, one(rng, small_job(rng)))


def place(rng, text):
    return rng.randrange(len(text) + 1)


def cut(rng, text):
    return text[:place(rng, text)]


def cut_in_front(rng, text):
    return text[place(rng, text):]


def without_line_feed(rng, text):
    return text[:-1]


def doubled(rng, text):
    return text + rng.choice([text, text[:place(rng, text)]])


def change_byte(rng, text):
    at = place(rng, text)
    return text[:at] + bytes([rng.randrange(256)]) + text[at + 1:]


def change_digit(rng, text):
    at = rng.choice([m.start() for m in re.finditer(rb'[0-9]', text)] or [0])
    return text[:at] + rng.choice([b'0', b'1', b'7', b'/', b':', b'-']) + text[at + 1:]


def insert_byte(rng, text):
    at = place(rng, text)
    return text[:at] + rng.choice([bytes([rng.randrange(256)]), b'0', b',', b'-', b'\n', b' ']) + text[at:]


def remove_byte(rng, text):
    at = place(rng, text)
    return text[:at] + text[at + 1:]


def surround(rng, text):
    odd = rng.choice([b'\n', b'\0', b' ', b'\r', b'\r\n', b'\xef\xbb\xbf', b'\xff', b'#', b'0',
                      b'x', b'modulus=257\n'])
    return rng.choice([odd + text, text + odd])


def line_ends(rng, text):
    return text.replace(b'\n', rng.choice([b'\r\n', b'\r', b'\n\n', b' \n', b'\0', b',\n', b';']),
                        rng.choice([1, 2, 3, -1]))


def move_lines(rng, text):
    lines = text.splitlines(True)
    change = rng.randrange(3)
    if change == 0:
        rng.shuffle(lines)
    elif change == 1:
        lines.insert(rng.randrange(len(lines) + 1), rng.choice(lines or [b'']))
    elif lines:
        lines.pop(rng.randrange(len(lines)))
    return b''.join(lines)


def key_changes(rng, text):
    key = rng.choice([b'modulus=', b'degree=', b'coeffs=', b'weights='])
    other = rng.choice([key.upper(), key.capitalize(), key[:-1], key + b' ', b' ' + key, key + b'=',
                        key[:-1] + b':', b'', key[1:], key[:-2] + b'=', b'simple=yes\n' + key, b'degree='])
    return text.replace(key, other)


def odd_number(rng, text):
    """One number of the job takes an odd spelling or a great value."""
    found = rng.choice(list(re.finditer(rb'-?[0-9]+', text)) or [re.match(b'', text)])
    return text[:found.start()] + rng.choice(ODD_NUMBERS).encode() + text[found.end():]


def leading_zeros(rng, text):
    at = rng.choice([m.start() for m in re.finditer(rb'(?<![0-9])[0-9]', text)] or [0])
    return text[:at] + b'0' * rng.choice([1, 2, 10, 20]) + text[at:]


def overlong(rng, text):
    """Around 4,096 bytes and far above."""
    size = rng.choice([4094, 4095, 4096, 4097, 4098, 8192, 65536, 70000]) - len(text)
    at = rng.choice([m.end() for m in re.finditer(rb'[=,\n]', text)] or [0])
    filler = rng.choice([b'0', b'\n', b'\0', b' ', b'1', b'1,', b'9'])
    return text[:at] + (filler * size)[:size] + text[at:]


def wrong_degree(rng, text):
    other = rng.choice([0, 1, 2, 3, 4, 12, 13, 64, 65]) + rng.choice([0, 0, 256, 4294967296])
    return re.sub(rb'degree=[0-9]*', b'degree=%d' % other, text)


DAMAGES = [cut, cut_in_front, without_line_feed, doubled, change_byte, change_digit, insert_byte, remove_byte,
           surround, line_ends, move_lines, key_changes, odd_number, leading_zeros, overlong, wrong_degree]


def largest():
    """Jobs with the most lists and the most placements; the last has the longest answer of 3,000 that were drawn, with 990 coefficients."""
    p, shapes = 2147483647, [(6, [1, 2, 3, 4, 5, 6]), (6, [1, -1, 2, -2, 3, -3]), (7, [1, 1, 1, 2, 3, -1]), (12, [1] * 6), (11, [1, 2, 3])]
    for n, weights in shapes:
        rng = random.Random(596)
        yield text_of(p, [rng.randrange(p) for _ in range(n)], weights)


LONGEST = 10493  # the bytes of the last one's answer


def all_jobs():
    rng = random.Random(20240101)
    return [job for draw in (answered, too_many, sweeps, broken, damaged) for job in draw(rng)] + [b'', *largest()]


def run(command, dribble=False, wanted=lambda text: True):
    """Takes the jobs that are wanted."""
    tally = harness.Tally()
    seen = collections.Counter()
    jobs = all_jobs()
    for k, job in enumerate(jobs):
        if (dribble and k % 16 and k + 1 < len(jobs)) or not wanted(job):
            continue
        want = second.answer(job)
        seen[want.decode().strip() if want.startswith(b'refused') else 'answered'] += 1
        got = harness.output(command, job, dribble)
        tally.equal('job %d %s' % (k, harness.shorten(job, 2000)), got, want)
    tally.equal('bytes of the longest answer', len(want), LONGEST)
    print('expected: ' + ', '.join('%s %d' % pair for pair in sorted(seen.items())))
    return tally


if __name__ == '__main__':
    if sys.argv[1:2] == ['--show'] and sys.argv[2:]:
        sys.stdout.buffer.write(all_jobs()[int(sys.argv[2])])
    else:
        sys.exit(run(*harness.arguments(__doc__)).finish())
