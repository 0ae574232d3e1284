"""witnesses.py: bases and primes for curve records of version 2 (W-201), good ones and those that nearly do; numbers alone, no record.
What a witness must keep, it says once more: selfcheck.py holds reference.py to it.
"""
from functools import lru_cache


@lru_cache(maxsize=None)
def primes_of(n):
    """The different primes that divide n, rising; n has no two of them over 10,000 or so."""
    primes, trial = [], 2
    while trial * trial <= n:
        if n % trial == 0:
            primes.append(trial)
        while n % trial == 0:
            n //= trial
        trial += 1
    return tuple(primes + [n] if n > 1 else primes)


def steps_passed(n, a, primes):
    """How many of a^(n-1) = 1 and then, in the order of the primes, a^((n-1)/q) ≠ 1 hold before the first that doesn't."""
    if pow(a, n - 1, n) != 1:
        return 0
    for passed, q in enumerate(primes, start=1):
        if pow(a, (n - 1) // q, n) == 1:
            return passed
    return 1 + len(primes)


@lru_cache(maxsize=None)
def witness_of(p):
    """The least base that will do, with the primes of p - 1; p is an odd prime."""
    primes = primes_of(p - 1)
    return next(a for a in range(1, p) if steps_passed(p, a, primes) == 1 + len(primes)), primes


def furthest(n):
    """With the primes of n - 1, the base that passes most steps, the least of them: for a composite n a liar of Fermat's, though it
    be n - 1."""
    primes = primes_of(n - 1)
    return max(range(1, n), key=lambda a: (steps_passed(n, a, primes), -a)), primes


def of_order_less(p, q):
    """A base whose order is (p - 1)/q: all of its other powers are as they should be where q divides p - 1 but once."""
    a, primes = witness_of(p)
    return pow(a, q, p), primes


def is_composite(n):
    return n > 3 and primes_of(n) != (n,)


# What can be wrong with a witness, of a p that 5 lets through. A wrong one may have several of these.
BASE, LISTED, LARGE, ORDER, STRANGE, LEFT, POWER, ROOT = FAULTS = (
    "base 0, or p or more", "listed and no prime", "listed and 2^31 or more", "not rising", "doesn't divide p - 1", "p - 1 not used up",
    "a^(p-1) isn't 1", "some a^((p-1)/q) is 1",
)  # fmt: skip


def faults_of(p, a, primes):
    """All that is wrong. A power by a number that doesn't divide p - 1 isn't looked at, nor is what is left once such a one is listed."""
    found = {BASE} if a == 0 or a >= p else set()
    found |= {LARGE for q in primes if q >= 2**31} | {LISTED for q in primes if q < 2 or q < 2**31 and is_composite(q)}
    found |= {ORDER for q, after in zip(primes, primes[1:]) if after <= q}
    found |= {STRANGE for q in primes if q == 0 or (p - 1) % q}
    product = 1
    for q in set(primes) - {0, 1}:
        while (p - 1) % (product * q) == 0:
            product *= q
    found |= {LEFT} if product != p - 1 else set()
    found |= {POWER} if pow(a, p - 1, p) != 1 else set()
    return found | {ROOT for q in primes if q and (p - 1) % q == 0 and pow(a, (p - 1) // q, p) == 1}
