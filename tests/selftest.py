"""The second opinion's own tests: second.py against known roots and against document 01's tables."""
import itertools
import random

import harness
import roots
import second

# Sums worked by hand, p = 257
BY_HAND = '''
254|5|242
254,2|1,1|254
254,2|1,2|248,20
254,2|1,-1|0,256
255,1|1,-1|0,0
0,254|1,-1|0,245
0,0,256|1,1|0,0,1
251,11,251|1,1|245,47,197
251,11,251|1,1,1|251
251,11,251|2,1|221,20,193,163,54,136
0,0,0,256|1,1|0,0,0,4,0,0
0,0,0,1|1,1|0,0,0,253,0,0
'''.split()

# Modulus, degree, weights, and the number of the refusal, or 0
EDGES = [
    (251, 1, [1], 2), (257, 1, [1], 0), (259, 1, [1], 3),
    (2147483647, 1, [1], 0), (2147483648, 1, [1], 2),
    (257, 12, [1] * 6, 10), (1009, 12, [1] * 6, 0), (1009, 11, [1, 2, 3], 0),
    (257, 12, [1, 2, 3], 9), (257, 10, [1] * 5, 0), (257, 8, [1, 2, 3], 10),
    (251, 1, [0], 2), (257, 1, [0], 8),
]

# Weights, and the number of lists worked: request 13's bounds for six and eight weights, its two orders, equal weights
LISTS_WORKED = [
    ([], 1), ([5], 2), ([1, 1], 5), ([1, 1, 2], 16), ([2, 1, 1], 11), ([1] * 4, 23), ([1] * 6, 95), ([1] * 8, 383),
    ([1, 1, 1, 1, 2, -1], 1003), ([-1, 2, 1, 1, 1, 1], 176), ([1, 2, 4, 8, 16, -5], 1957),
    ([1, 2, 4, 8, 16, 32, 64, 128], 109601),
]

# Degrees of the irreducible factors, d^m for one that occurs m times
FACTORINGS = '''
1; 1 1; 1^2; 2; 1 1 1; 1^3; 1^2 1; 2 1; 3; 1 1 1 1; 2 2; 2^2; 2 1 1; 2 1^2; 4; 3 1; 5; 2 2 1; 4 1; 3 3;
3^2; 2 2 2; 2^3; 6; 4 2; 6 1; 7; 4 2 1 1; 6 2 1; 6 3^2; 2 2 2 2 2 2; 12; 6 3 2 1; 1 1 1 1 1 1 1 1;
1^7; 1^4 1^4; 1 1 1 1 1 1 1 1 1 1 1 1; 1^12; 2^6
'''.split(';')
LISTS = [
    [1], [-16], [1, 1], [1, -1], [2, 1], [16, -16], [1, 1, 1], [1, -1, 1], [1, 2, -3], [5, 5, -10],
    [1, 2, 3, 4], [1, 1, 1, 1], [1, -1, 1, -1], [3, 3, 3, -9], [1, 1, 1, 1, 1], [2, 2, -1, -1, -2],
    [1, 1, 1, 1, 1, 1], [1, 1, 1, -1, -1, -1], [7, 7, 7, 7, 7, -16],
]
MODULI = [257, 263, 1009, 65537, 10000139, 2147483629, 2147483647]


def numbers(text):
    return [int(number) for number in text.split(',')]


def factors(text):
    pairs = [(factor + '^1').split('^')[:2] for factor in text.split()]
    return [(int(degree), int(times)) for degree, times in pairs]


def tables(tally):
    for weights, want in LISTS_WORKED:
        tally.equal('lists worked for %s' % weights, second.lists_worked(weights), want)
    for case, line in zip('ABCDEFGHIJKL', BY_HAND):
        coeffs, weights, want = map(numbers, line.split('|'))
        tally.equal('case ' + case, second.resolvent(257, coeffs, weights), want)
    for modulus, n, weights, want in EDGES:
        tally.equal('edge %d %d %r' % (modulus, n, weights),
                    second.refusal(modulus, [0] * n, weights), want)
    tally.equal('listing', second.answer(b'modulus=257\ndegree=4\ncoeffs=0,0,0,256\nweights=1,1\n'),
                b'modulus=257\ndegree=6\nsimple=yes\ncoeffs=0,0,0,4,0,0\n')
    tally.equal('weights=', second.answer(b'modulus=257\ndegree=1\ncoeffs=0\nweights=\n'),
                b'refused=1\n')
    tally.equal('coefficient 257, no weights', second.refusal(257, [257], []), 5)
    tally.equal('no coefficients', second.refusal(257, [], []), 4)
    tally.equal('no weights', second.refusal(257, [256], []), 6)


def records(tally):
    """Document 01's two records, read and written, and texts and values on both sides of each of its limits."""
    job, answer = (257, [0, 0, 0, 256], [1, 1]), (257, True, [0, 0, 0, 4, 0, 0])
    texts = b'modulus=257\ndegree=4\ncoeffs=0,0,0,256\nweights=1,1\n', b'modulus=257\ndegree=6\nsimple=yes\ncoeffs=0,0,0,4,0,0\n'
    tally.equal('the job', (second.read_job(texts[0]), second.write_job(*job)), (job, texts[0]))
    tally.equal('the answer', (second.read_answer(texts[1]), second.write_answer(*answer)), (answer, texts[1]))
    for values, good in [((0, [0], [-999]), True), ((0, [0], [1000]), False), ((0, [0], [-1000]), False), ((2 ** 32, [0], [1]), False),
                         ((1, [2 ** 32 - 1] * 64, [999] * 64), True), ((1, [0] * 65, [1]), False), ((1, [0], [1] * 65), False),
                         ((1, [], [1]), False), ((1, [1], []), False)]:
        tally.equal('a job holds %r' % (values,), second.write_job(*values) is not None, good)
    for values, good in [((0, False, [0]), True), ((0, False, []), False), ((0, True, [2 ** 32]), False), ((0, 2, [1]), False),
                         ((2 ** 32 - 1, True, [2 ** 32 - 1] * 1024), True), ((1, True, [0] * 1025), False)]:
        tally.equal('an answer holds %s' % harness.shorten(values), second.write_answer(*values) is not None, good)
    longest = second.write_job(2 ** 32 - 1, [2 ** 32 - 1] * 64, [-999] * 64), second.write_answer(2 ** 32 - 1, True, [2 ** 32 - 1] * 1024)
    tally.equal('bytes of the longest records', tuple(map(len, longest)), (1068, 11313))
    for old, new in [(b'yes', b'Yes'), (b'yes', b''), (b'=6', b'=5'), (b'=6', b'=06'), (b'4', b'-4'), (b'\n', b'\r\n'), (b',0,0\n', b',0,0')]:
        tally.equal('an answer with %r for %r' % (new, old), second.read_answer(texts[1].replace(old, new)), None)


def known_roots(tally):
    """Every factoring with every list, the larger products left out."""
    rng = random.Random(1981)
    for factoring, weights in itertools.product(map(factors, FACTORINGS), LISTS):
        n = sum(degree * times for degree, times in factoring)
        count = second.placement_count(n, weights) if len(weights) <= n else 0
        p = rng.choice(MODULI)
        if count in range(1, p) and count * max(factoring)[0] <= 400:
            one_polynomial(tally, *roots.split_polynomial(rng, p, factoring), weights)


def most_placements(tally):
    rng = random.Random(1982)
    for n, weights in [(12, [1] * 6), (11, [1, 2, 3]), (6, [1, 2, 3, 4, 5, 6]), (9, [3, -3, 3, -3])]:
        one_polynomial(tally, *roots.split_polynomial(rng, rng.choice(MODULI[2:]), [(1, 1)] * n), weights)


def one_polynomial(tally, ring, zeros, weights):
    coeffs = ring.product_over(zeros)
    tally.equal('resolvent of %r modulo %d by %r' % (coeffs, ring.p, weights),
                second.resolvent(ring.p, coeffs, weights), roots.resolvent(ring, zeros, weights))
    tally.equal('mark of %r modulo %d' % (coeffs, ring.p),
                second.has_simple_roots(ring.p, coeffs), roots.is_simple(zeros))


def run():
    tally = harness.Tally()
    tables(tally)
    records(tally)
    known_roots(tally)
    most_placements(tally)
    return tally
