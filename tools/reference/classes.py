"""classes.py: the pairs that break a naive formula, class by class, for vectors.py.

A sum by explicit formula solves s·h = c modulo m, where m is u2, h is u1 and c is v2 - v1; of a double m is u, h is 2v and c is
(f - v²)/u. It ends early where a weight is below g, where h has no inverse modulo m ("r = 0"), where s has a lower
degree than g - 1, and in genus 3 where f_6 ≠ 0. `classes_of` says what a pair is, by gcds and by the division itself and not by any
formula. `drawn` makes a pair of a class, and the curve round it.
"""
from collections import namedtuple
from functools import partial

import reference as r

# ---------------------------------------------------------------------------------------------------------
# What a pair is
# ---------------------------------------------------------------------------------------------------------

PRIMES = (3, 5, 7, 11, 1009, 65537, 2147483629, 2147483647)
MAIN_PRIMES = (3, 5, 7, 11, 2147483647)  # where genus 3 has a main class each
SEVENTH = (1, 6, 0, 0, 0, 0, 0, 1)  # x^7 + 6x + 1, whose derivative at p = 7 is a constant


def slope(curve, a, b):
    """s, of degree below g, or None where r = 0. b is None for a double."""
    p = curve.p
    if b is None:
        m, h = a.u, r.plus(a.v, a.v, p)
        c = r.quotient_of(r.minus(curve.f, r.times(a.v, a.v, p), p), a.u, p)
    else:
        m, h, c = b.u, a.u, r.minus(b.v, a.v, p)
    d, inverse, _ = r.greatest_common_divisor(h, m, p)
    return r.modulo(r.times(inverse, c, p), m, p) if d == r.ONE else None


def special_name(curve, a, b):
    """The name of a pair with r = 0: by the degrees of gcd(u1, u2) and of d, which is that gcd's with v1 + v2."""
    p = curve.p
    if b is None:
        return "%d with y = 0" % r.degree(r.greatest_common_divisor(a.u, a.v, p)[0])
    common = r.greatest_common_divisor(a.u, b.u, p)[0]
    d = r.greatest_common_divisor(common, r.plus(a.v, b.v, p), p)[0]
    return "gcd %d, d %d" % (r.degree(common), r.degree(d))


def name_of(curve, a, b):
    """The class of a pair without its genus and call, or None for one that isn't asked for."""
    g, p = curve.g, curve.p
    weights = sorted([r.weight(a), r.weight(a if b is None else b)])
    top = curve.f[2 * g] != 0
    if weights[0] < g:
        return "weights %d + %d" % (weights[1], weights[0]) if g == 2 or not top else None
    s = slope(curve, a, b)
    if g == 2:
        if s is None:
            return special_name(curve, a, b)
        if r.degree(s) < 1:
            return "s = 0" if s == r.ZERO else "s_1 = 0, s_0 ≠ 0"
        return ("main, f_4 ≠ 0" if top else "main, f_4 = 0") + (", p = %d" % p if p <= 5 and top else "")
    if s is not None and r.degree(s) == 2:
        if top:
            return "f_6 ≠ 0, else main"
        return "main, p = %d" % p if p != 7 or curve.f == SEVENTH else None
    if top:
        return None
    return special_name(curve, a, b) if s is None else "s_2 = 0, weight %d" % (2 if r.degree(s) == 1 else 1)


def class_of(curve, a, b=None):
    """The class of a pair, or of a double where b is left out: genus, call and name; None where it has none."""
    name = name_of(curve, a, b)
    return None if name is None else (curve.g, "double" if b is None else "add", name)


# ---------------------------------------------------------------------------------------------------------
# Pairs, and curves round them
# ---------------------------------------------------------------------------------------------------------


def some_polynomial(dice, p, length):
    return r.polynomial([dice.below(p) for _ in range(length)], p)


def some_monic(dice, p, degree):
    return tuple(dice.below(p) for _ in range(degree)) + (1,)


def product(factors, p):
    whole = r.ONE
    for factor in factors:
        whole = r.times(whole, factor, p)
    return whole


def joined(parts, p):
    """The product of moduli and what is each value modulo its modulus; None where two moduli share a factor."""
    whole, value = r.ONE, r.ZERO
    for modulus, wanted in parts:
        d, s, _ = r.greatest_common_divisor(whole, modulus, p)
        if d != r.ONE:
            return None
        step = r.modulo(r.times(r.minus(wanted, value, p), s, p), modulus, p)
        value = r.plus(value, r.times(step, whole, p), p)
        whole = r.times(whole, modulus, p)
    return whole, value


def curve_through(dice, g, p, parts, top):
    """An accepted curve with f = y² modulo each part (modulus, y), and f_2g = 0 or not; None where the draw has none."""
    held = joined([(modulus, r.times(y, y, p)) for modulus, y in parts], p)
    if held is None:
        return None
    whole, value = held
    rest = list(some_monic(dice, p, 2 * g + 1 - r.degree(whole)))
    wanted = 1 + dice.below(p - 1) if top else 0
    f = r.plus(value, r.times(whole, tuple(rest), p), p)
    rest[-2] = (rest[-2] + wanted - f[2 * g]) % p
    f = r.plus(value, r.times(whole, tuple(rest), p), p)
    return None if r.has_repeated_factor(f, p) else r.Curve(g, p, f)


def some_parts(dice, p, degrees):
    """Drawn parts with these degrees."""
    return [(some_monic(dice, p, n), some_polynomial(dice, p, n)) for n in degrees]


def divisor_of(parts, p):
    return r.Divisor(*joined(parts, p))


def shared(k, j, g, p, dice):
    """gcd(u1, u2) of degree k, d of degree j."""
    against, along, left, right = parts = some_parts(dice, p, (j, k - j, g - k, g - k))
    if dice.below(2):
        against = parts[0] = against[0], r.ZERO  # y = 0 there
    curve = curve_through(dice, g, p, parts, g == 2 and dice.below(2))
    if curve is None:
        return None
    turned = against[0], r.minus(r.ZERO, against[1], p)
    return curve, divisor_of([against, along, left], p), divisor_of([turned, along, right], p)


def flat(n, g, p, dice):
    """A double with n points y = 0."""
    parts = [(some_monic(dice, p, n), r.ZERO)] + some_parts(dice, p, (g - n,))
    curve = curve_through(dice, g, p, parts, g == 2 and dice.below(2))
    return None if curve is None else (curve, divisor_of(parts, p), None)


def weighed(first, second, top, g, p, dice):
    """Any pair of these weights; of a double the second is None."""
    parts = some_parts(dice, p, (first,) if second is None else (first, second))
    curve = curve_through(dice, g, p, parts, top)
    if curve is None:
        return None
    pair = [divisor_of([part], p) for part in parts]
    if second is None:
        return curve, pair[0], None
    return (curve, *pair) if dice.below(2) else (curve, pair[1], pair[0])


def low(length, doubled, g, p, dice):
    """s of low degree: V = v1 + s·u1 is drawn, of at most so many coefficients, and f from it; f - V² = U·(x + c), or in genus 3 with
    deg V = 4, -w²·U·(x² + b x + c)."""
    u1, u2 = some_monic(dice, p, g), some_monic(dice, p, g)
    u2 = u1 if doubled else u2
    v = [dice.below(p) for _ in range(length)]
    v[-1] = v[-1] or 1
    square = r.times(r.polynomial(v, p), r.polynomial(v, p), p)
    over = r.times(u1, u2, p)
    if length == 5:
        w = v[4] * v[4] % p
        b = ((square[7] - 1) * pow(w, -1, p) - over[5]) % p
        c = (square[6] * pow(w, -1, p) - over[4] - b * over[5]) % p
        f = r.minus(square, r.times((w,), r.times(over, (c, b, 1), p), p), p)
    else:
        c = dice.below(p)
        if g == 3:
            c = -((square[6] if len(square) > 6 else 0) + over[5]) % p
        f = r.plus(square, r.times(over, (c, 1), p), p)
    if r.has_repeated_factor(f, p):
        return None
    pair = [r.Divisor(u, r.modulo(r.polynomial(v, p), u, p)) for u in (u1, u2)]
    return (r.Curve(g, p, f), pair[0], None if doubled else pair[1])


def on_seventh(doubled, g, p, dice):
    """On x^7 + 6x + 1, which is 1 at every x: sums of points (x, 1) and (x, -1)."""
    curve = r.Curve(g, p, SEVENTH)
    points = [r.Divisor((dice.below(p), 1), (dice.pick([1, p - 1]),)) for _ in range(8)]
    a, b = r.total_of(curve, points[:4]), r.total_of(curve, points[4:])
    return curve, a, None if doubled else b


Kind = namedtuple("Kind", "primes draw")


def all_classes():
    classes = {}

    def put(g, call, name, draw, primes=PRIMES):
        classes[g, call, name] = Kind(primes, draw)

    for g in (2, 3):
        for k in range(1, g + 1):
            for j in range(k + 1):
                put(g, "add", "gcd %d, d %d" % (k, j), partial(shared, k, j))
        for n in range(1, g + 1):
            put(g, "double", "%d with y = 0" % n, partial(flat, n))
    put(2, "add", "weights 2 + 1", partial(weighed, 2, 1, True))
    put(3, "add", "weights 3 + 2", partial(weighed, 3, 2, False))
    put(3, "add", "weights 3 + 0", partial(weighed, 3, 0, False))
    for call, doubled in (("add", False), ("double", True)):
        put(2, call, "s = 0", partial(low, 2, doubled))
        put(2, call, "s_1 = 0, s_0 ≠ 0", partial(low, 3, doubled))
        put(2, call, "main, f_4 = 0", partial(weighed, 2, None if doubled else 2, False))
        put(2, call, "main, f_4 ≠ 0", partial(weighed, 2, None if doubled else 2, True), PRIMES[2:])
        for p in (3, 5):
            put(2, call, "main, f_4 ≠ 0, p = %d" % p, partial(weighed, 2, None if doubled else 2, True), (p,))
        put(3, call, "s_2 = 0, weight 2", partial(low, 5, doubled))
        put(3, call, "s_2 = 0, weight 1", partial(low, 4, doubled))
        put(3, call, "f_6 ≠ 0, else main", partial(weighed, 3, None if doubled else 3, True))
        for p in MAIN_PRIMES:
            draw = partial(on_seventh, doubled) if p == 7 else partial(weighed, 3, None if doubled else 3, False)
            put(3, call, "main, p = %d" % p, draw, (p,))
    return classes


CLASSES = all_classes()
LEAST = 20  # of each class


# Other sums have plenty of these: what is missing is made up for at the last prime.
COMMON = {
    (2, "add", "gcd 1, d 0"), (2, "add", "gcd 1, d 1"), (2, "add", "gcd 2, d 1"), (2, "add", "gcd 2, d 2"),
    (2, "add", "weights 2 + 1"), (2, "double", "main, f_4 ≠ 0"), (3, "add", "weights 3 + 2"), (3, "add", "f_6 ≠ 0, else main"),
    (3, "double", "f_6 ≠ 0, else main"),
}  # fmt: skip


def asked(key, p):
    """How many there should be of a class once the primes up to p had their turn."""
    primes = CLASSES[key].primes
    if key in COMMON and p < primes[-1]:
        return 0
    return -(-LEAST * sum(1 for prime in primes if prime <= p) // len(primes))


def drawn(dice, key, p, tries=300):
    """A curve and a pair of this class, the second None for a double; None where the tries have none."""
    for _ in range(tries):
        found = CLASSES[key].draw(key[0], p, dice)
        if found is not None and class_of(*found) == key:
            return found
    return None
