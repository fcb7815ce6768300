"""Records for tests/exports, drawn from a fixed seed: right ones of every size, damaged ones, and values that no record holds."""
import random
import re

import compare
import second

MOST_WORD, MOST_WEIGHT = second.MOST_WORD, second.MOST_WRITTEN_WEIGHT
JOB_SIZE, ANSWER_SIZE = second.MOST_LISTED, second.MOST_PLACEMENTS
MARKS = [b'Yes', b'YES', b'NO', b'y', b'n', b'', b'0', b'1', b'true', b'yesno', b'noo', b'ye', b' yes', b'no ', b'yes,no', b'maybe']
NO_MARKS = [2, 3, 255, 256, 257, 65536, 2 ** 31, 2 ** 31 + 1, MOST_WORD]


# Values

def word(rng):
    """Small ones and large ones, with the bounds among them."""
    return min(int(10 ** (10 * rng.random())) - 1, MOST_WORD)


def weight(rng):
    return rng.choice([-1, 1]) * min(int(10 ** (3.1 * rng.random())) - 1, MOST_WEIGHT)


def job(rng, n, r):
    return word(rng), [word(rng) for _ in range(n)], [weight(rng) for _ in range(r)]


def answer(rng, n):
    return word(rng), rng.random() < 0.5, [word(rng) for _ in range(n)]


def jobs(rng):
    """Every number of coefficients and every number of weights, and the longest and the shortest job."""
    for size in range(1, JOB_SIZE + 1):
        for r in (1, JOB_SIZE, size, JOB_SIZE + 1 - size, rng.randrange(1, JOB_SIZE + 1)):
            yield job(rng, size, r)
    yield MOST_WORD, [MOST_WORD] * JOB_SIZE, [-MOST_WEIGHT] * JOB_SIZE
    yield 0, [0], [0]


def answers(rng):
    """Every number of coefficients, and the longest and the shortest answer."""
    for size in range(1, ANSWER_SIZE + 1):
        yield answer(rng, size)
    yield MOST_WORD, True, [MOST_WORD] * ANSWER_SIZE
    yield 0, False, [0]


def no_jobs(rng):
    """Values that no job holds: a list with no number or with too many, and a weight too large, wherever it stands."""
    for n, r in [(0, 1), (1, 0), (0, 0), (JOB_SIZE + 1, 1), (1, JOB_SIZE + 1), (JOB_SIZE + 1, 0), (0, JOB_SIZE + 1), (300, 300), (1025, 1)]:
        yield job(rng, n, r)
    for far in (MOST_WEIGHT + 1, -MOST_WEIGHT - 1, 4095, -65536, 2 ** 31 - 1, -2 ** 31):
        for at in (0, 1, 31, 63):
            modulus, coeffs, weights = job(rng, rng.randrange(1, JOB_SIZE + 1), JOB_SIZE)
            yield modulus, coeffs, weights[:at] + [far] + weights[at + 1:]


def no_answers(rng):
    """The same for answers, with words that are no mark."""
    for n in (0, ANSWER_SIZE + 1, ANSWER_SIZE + 2, 5000):
        for simple in (0, 1, 2):
            yield word(rng), simple, [word(rng) for _ in range(n)]
    for simple in NO_MARKS:
        for n in (1, 7, ANSWER_SIZE):
            yield word(rng), simple, [word(rng) for _ in range(n)]


# Texts

def other_mark(rng, text):
    return re.sub(b'simple=(yes|no)', b'simple=' + rng.choice(MARKS), text)


def other_key(rng, text):
    """The keys of one kind of record for those of the other, one key twice, or one less."""
    keys = [b'modulus=', b'degree=', b'simple=', b'coeffs=', b'weights=']
    return text.replace(rng.choice(keys), rng.choice([*keys, b'']))


def degree_near(rng, text):
    return re.sub(b'degree=([0-9]+)', lambda found: b'degree=%d' % max(0, int(found[1]) + rng.choice([-1, 1, 256, 2 ** 32])), text)


def one_number_more(rng, text):
    """In one of the lists, with the degree as it was or one higher."""
    at = rng.choice([found.end() for found in re.finditer(b'(coeffs|weights)=', text)] or [0])
    longer = text[:at] + rng.choice([b'0,', b'7,', b'-1,', b',']) + text[at:]
    return rng.choice([longer, re.sub(b'degree=([0-9]{1,9})', lambda found: b'degree=%d' % (int(found[1]) + 1), longer)])


DAMAGES = [*compare.DAMAGES, other_mark, other_key, degree_near, one_number_more]


def damaged(rng, draw, each):
    for damage in DAMAGES:
        for _ in range(each):
            yield damage(rng, draw(rng))
    for _ in range(5 * each):
        one, other = rng.sample(DAMAGES, 2)
        yield other(rng, one(rng, draw(rng)))


def odd_numbers():
    """Each odd spelling in each place where a number can stand, in both kinds of record."""
    for number in compare.ODD_NUMBERS:
        for values in [dict(modulus=number), dict(degree=number), dict(first=number), dict(last=number), dict(other=number)]:
            given = dict(modulus=5, degree=3, first=1, last=1, other=1) | values
            coeffs = '%s,2,%s' % (given['first'], given['last'])
            head = dict(modulus=given['modulus'], degree=given['degree'])
            yield second.lines(**head, coeffs=coeffs, weights='%s,2' % given['other'])
            yield second.lines(**head, coeffs=coeffs, weights='2,%s' % given['other'])
            yield second.lines(**head, simple='yes', coeffs=coeffs)


def too_many():
    """One number more than a list holds, the degree right."""
    for n, r in [(JOB_SIZE + 1, 1), (1, JOB_SIZE + 1), (JOB_SIZE + 1, JOB_SIZE + 1), (JOB_SIZE, JOB_SIZE + 1), (2000, 1)]:
        yield second.lines(modulus=1, degree=n, coeffs=[1] * n, weights=[1] * r)
    for n in (ANSWER_SIZE, ANSWER_SIZE + 1, 3000):
        yield second.lines(modulus=1, degree=n, simple='no', coeffs=[MOST_WORD] * n)


def drawn_job(rng):
    most = rng.choice([3, 3, JOB_SIZE])
    return second.write_job(*job(rng, rng.randrange(1, most + 1), rng.randrange(1, most + 1)))


def drawn_answer(rng):
    return second.write_answer(*answer(rng, rng.randrange(1, rng.choice([3, 3, 30, ANSWER_SIZE]) + 1)))


def texts():
    """Every text that a reader is tried on; each is read as a job and as an answer."""
    rng = random.Random(1981)
    yield from (second.write_job(*values) for values in jobs(rng))
    yield from (second.write_answer(*values) for values in answers(rng))
    yield from damaged(rng, drawn_job, 80)
    yield from damaged(rng, drawn_answer, 60)
    yield from odd_numbers()
    yield from too_many()
    yield b''
