"""orders.py: orders of divisors with their lists of primes (W-214), by counting on small curves and from a known multiple on large ones; and
orders and lists that nearly do. What is wrong with one it says by the true order and remainders alone, without a multiple: selfcheck.py holds
reference.py to it.
"""
import math
from functools import lru_cache

import reference as r
from corner_table import LARGEST_LISTED, LONG_2, LONG_3, MANY, OVER, PRIME_OVER
from records import in_4_bytes
from witnesses import is_composite

# x^(2g+1) + 1 modulo p: a multiple of every order, with its primes. Where p is -1 modulo 2g + 1, Frobenius' square is -p and so every order
# divides p + 1; where the powers of p are all numbers prime to 2g + 1, there are p^g + 1 divisors.
MULTIPLES = {
    (2, 65537): (65537**2 + 1, (2, 5, 8681, 49477)),
    (3, 65537): (65537**3 + 1, (2, 3, 7, 11, 13, 97, 241, 331, 673)),
    (2, LONG_2): (LONG_2**2 + 1, (2, 5, 29, 53, 97, 101, 173, 10949, 35933, 482401, 4421297)),
    (3, LONG_3): (LONG_3**3 + 1, (2, 7, 19, 23, 73, 79, 109, 41759, 87181, 3292981, 32062201, 158038663)),
}
for _p, _primes in (
    (MANY, (2, 3, 5, 7, 11, 13, 17, 19, 23, 29, 31, 37, 41, 43, 53)),
    (LARGEST_LISTED, (2, 5, 7, 2**31 - 1)),
    (OVER, (2, 3, 5, 7, PRIME_OVER)),
):
    MULTIPLES.update({(g, _p): (_p + 1, _primes) for g in (2, 3)})


def in_bytes(n):
    """n without leading zeros: nothing for 0."""
    return n.to_bytes((n.bit_length() + 7) // 8, "big")


def dividing(n, primes):
    return tuple(q for q in primes if n % q == 0)


@lru_cache(maxsize=None)
def counted(curve, divisor):
    """How many copies it takes to the neutral divisor, one after the other."""
    total, n = divisor, 1
    while total != r.NEUTRAL:
        total, n = r.sum_of(curve, total, divisor), n + 1
    return n


@lru_cache(maxsize=None)
def order_of(curve, divisor):
    """By counting where p is small, otherwise what is left of the known multiple; None where there is none."""
    if curve.p <= 11:
        return counted(curve, divisor)
    g, p = curve.g, curve.p
    if curve.f != (1,) + (0,) * (2 * g) + (1,) or (g, p) not in MULTIPLES:
        # a point of order 2g + 1 or 2, or the sum of two such: no more is known
        return next((n for n in (1, 2, 2 * g + 1, 4 * g + 2) if r.multiple_of(curve, divisor, n)[0] == r.NEUTRAL), None)
    n, primes = MULTIPLES[g, p]
    for q in primes:
        while n % q == 0 and r.multiple_of(curve, divisor, n // q)[0] == r.NEUTRAL:
            n //= q
    return n


# What can be wrong with n and its list. A wrong pair may have several of these.
WHOLE, MORE, LISTED, LARGE, RISING, STRANGE, LEFT, ZERO, MULTIPLE, LESS = FAULTS = (
    "not whole", "over 32 listed", "listed and no prime", "listed and 2^31 or more", "not rising", "doesn't divide n", "n not used up",
    "n = 0", "the n-fold isn't neutral", "some n/q-fold is neutral",
)  # fmt: skip


def faults_of(order, n, primes):
    """All that is wrong, of a divisor of this order; primes are the list's bytes. Of a list that isn't whole, no more is said."""
    if len(primes) % 4:
        return {WHOLE}
    numbers = [int.from_bytes(primes[i : i + 4], "big") for i in range(0, len(primes), 4)]
    found = {MORE} if len(numbers) > 32 else set()
    found |= {LARGE for q in numbers if q >= 2**31} | {LISTED for q in numbers if q < 2 or q < 2**31 and is_composite(q)}
    found |= {RISING for q, after in zip(numbers, numbers[1:]) if after <= q}
    found |= {STRANGE for q in numbers if q == 0 or n % q}
    left = n
    for q in set(numbers) - {0, 1}:
        while n and left % q == 0:
            left //= q
    found |= {ZERO} if n == 0 else {LEFT} if left != 1 else set()
    found |= {MULTIPLE} if n % order else set()
    return found | {LESS for q in numbers if q and n % q == 0 and n // q % order == 0}


FIRST_33 = tuple(q for q in range(2, 138) if not is_composite(q))


def wrong(dice, n, primes):
    """From a divisor's order and its primes, pairs of a number and a list's bytes: each is wrong, most by one thing alone."""
    stranger = next(q for q in (3, 7, 11, 101, 103) if n % q)
    q = dice.pick(primes) if primes else stranger
    others = tuple(p for p in primes if p != q)
    rising = tuple(sorted({*primes, stranger}))
    pairs = [
        (n * q, tuple(sorted({*primes, q}))),
        (n * stranger, rising),
        (n, rising),
        (n * stranger, primes),
        (0, primes),
        (0, ()),
        (n, (0,) + primes),
        (n, (1,) + primes),
        (n, primes + (dice.pick([2**31, PRIME_OVER, 2**32 - 1]),)),
        (n, FIRST_33),
        (math.prod(FIRST_33), FIRST_33),
        (math.prod(FIRST_33[:-1]), FIRST_33[:-1]),
    ]
    if primes:
        pairs += [
            (n // q, dividing(n // q, primes)),
            (n, others),
            (n, ()),
            (1, ()),
            (n, primes + primes[-1:]),
            (n, primes[::-1] if others else primes * 2),
            (n - 1, primes),
        ]
        composite = q * (others[0] if others else q)
        pairs += [(n, tuple(sorted({composite, *others[1:]})))] if composite < 2**31 else []
    in_lists = [(m, in_4_bytes(numbers)) for m, numbers in pairs]
    whole = in_4_bytes(primes)
    return in_lists + [(n, whole + bytes(1 + dice.below(3))), (n, whole[: max(0, len(whole) - 1 - dice.below(3))] or b"\2")]
