#!/usr/bin/env python3
"""soicher.py PROGRAM

Soicher's thesis of 1981, Example 4.1: the resolvent of x^7 - 14x^5 + 56x^3 - 56x + 22 for the weights 1,1,1 has degree 35 and
the three factors that the thesis prints. Runs PROGRAM on the polynomial modulo some primes and compares its answer with the
product of the printed factors. Last line: `N passed, M failed`.
"""
import sys

import harness

F = {7: 1, 5: -14, 3: 56, 1: -56, 0: 22}
FACTORS = [
    {7: 1, 5: -28, 3: 224, 1: -448, 0: 94},
    {7: 1, 5: -28, 3: 224, 1: -448, 0: 192},
    {21: 1, 19: -84, 17: 2436, 15: -31136, 14: 6358, 13: 203840, 12: -84392, 11: -733824, 10: 420728,
     9: 1480192, 8: -988064, 7: -1652036, 6: 1138368, 5: 986496, 4: -620928, 3: -284032, 2: 137984,
     1: 27104, 0: -10648},
]
PRIMES = [257, 1009, 10000019, 2147483647]


def dense(terms, p):
    """The coefficients modulo p, highest power first."""
    return [terms.get(k, 0) % p for k in range(max(terms), -1, -1)]


def product(a, b, p):
    out = [0] * (len(a) + len(b) - 1)
    for i, x in enumerate(a):
        for j, y in enumerate(b):
            out[i + j] = (out[i + j] + x * y) % p
    return out


def expected(p):
    whole = [1]
    for factor in FACTORS:
        whole = product(whole, dense(factor, p), p)
    return ','.join(map(str, whole[1:]))


def job(p):
    coeffs = ','.join(map(str, dense(F, p)[1:]))
    return ('modulus=%d\ndegree=7\ncoeffs=%s\nweights=1,1,1\n' % (p, coeffs)).encode()


def run(command):
    tally = harness.Tally()
    for p in PRIMES:
        want = 'modulus=%d\ndegree=35\nsimple=yes\ncoeffs=%s\n' % (p, expected(p))
        tally.equal('Example 4.1 modulo %d' % p, harness.output(command, job(p)), want.encode())
    return tally


def main():
    command, _ = harness.arguments(__doc__)
    return run(command).finish()


if __name__ == '__main__':
    sys.exit(main())
