"""splits.py: divisors to be split (W-213), shape by shape of u, with curves round them; what shape a u has; and the split of every divisor of a
small curve by a search over pairs. selfcheck.py and vectors.py use it.
"""
from functools import lru_cache

import census
import classes
import ideals
import reference as r

# Weight, what roots u has in the field, and whether 0 is one of them
TWO, DOUBLE, NONE = "two roots", "a double root", "no root"
THREE, BELOW, ABOVE, TRIPLE, ONE = "three roots", "a double root below a single one", "a double root above a single one", "a triple root", "one root"
SHAPES = tuple(
    [(2, roots, zero) for roots in (TWO, DOUBLE) for zero in (False, True)] + [(2, NONE, False)]
    + [(3, roots, zero) for roots in (THREE, BELOW, ABOVE, TRIPLE, ONE) for zero in (False, True)] + [(3, NONE, False)]
)  # fmt: skip


def shapes(g, p):
    """Those of genus g that can be: modulo 3, three different roots have 0 among them."""
    return [shape for shape in SHAPES if shape[0] <= g and not (p == 3 and shape == (3, THREE, False))]


def words(shape):
    return "weight %d, %s%s" % (shape[0], shape[1], ", 0 among them" * shape[2])


def shape_of(u, p):
    """The shape of a u of degree 2 or 3: by its roots, each taken out as often as it goes."""
    taken = []
    left = u
    for root in r.roots_of(u, p):
        while r.value_at(left, root, p) == 0:
            taken.append(root)
            left = r.quotient_of(left, (-root % p, 1), p)
    different = sorted(set(taken))
    if len(u) == 3:
        roots = NONE if not taken else TWO if len(different) == 2 else DOUBLE
    elif len(taken) < 3:
        roots = ONE if taken else NONE
    elif len(different) == 2:
        roots = BELOW if taken.count(different[0]) == 2 else ABOVE
    else:
        roots = THREE if len(different) == 3 else TRIPLE
    return len(u) - 1, roots, 0 in taken


def is_power(a, n, p):
    """Whether a, not 0, is an n-th power, where n divides p - 1 (Euler)."""
    return pow(a, (p - 1) // n, p) == 1


def without_roots(dice, p, n):
    """Of degree 2 or 3 and known to have no root: (x + a)^n less what is no n-th power, or where all numbers are, by trying all x."""
    while True:
        if (p - 1) % n == 0:
            a, c = dice.below(p), 1 + dice.below(p - 1)
            u = r.minus(classes.product([(a, 1)] * n, p), (c,), p)
            if not is_power(c, n, p):
                return u
        else:
            u = classes.some_monic(dice, p, n)
            if all(r.value_at(u, x, p) for x in range(p)):
                return u


def some_u(dice, p, shape):
    """A u of this shape, from roots that are drawn."""
    w, roots, zero = shape
    first = 0 if zero else 1 + dice.below(p - 1)
    second, third = (1 + dice.below(p - 1) for _ in range(2))
    low, high = sorted((first, second))
    taken = {
        TWO: (first, second), DOUBLE: (first, first), THREE: (first, second, third), BELOW: (low, low, high), ABOVE: (low, high, high),
        TRIPLE: (first,) * 3, ONE: (first,), NONE: (),
    }[roots]  # fmt: skip
    u = classes.product([(-root % p, 1) for root in taken], p)
    return u if len(taken) == w else r.times(u, without_roots(dice, p, w - len(taken)), p)


def drawn(dice, g, p, shape):
    """A curve and a divisor whose u has this shape, sometimes with y = 0 at all or some of its roots."""
    while True:
        u = some_u(dice, p, shape)
        v = classes.some_polynomial(dice, p, shape[0])
        if dice.below(4) == 0:
            v = r.ZERO
        elif dice.below(4) == 0 and r.roots_of(u, p):
            root = dice.pick(r.roots_of(u, p))
            v = r.minus(v, (r.value_at(v, root, p),), p)
        curve = classes.curve_through(dice, g, p, [(u, v)], dice.below(2))
        if curve is not None and shape_of(u, p) == shape:
            return curve, r.Divisor(u, v)


@lru_cache(maxsize=None)
def all_divisors(curve):
    """Of a small curve, in the order of its census."""
    return tuple(r.Divisor(u + (1,), r.polynomial(v, curve.p)) for u, v in census.divisors(curve.g, curve.p, curve.f))


def searched(curve):
    """Every divisor with the pair that it's split into or None. All pairs of one of weight 1 with one of weight 1 or 2 are summed by ideals.py;
    of those that give a divisor of weight 2 the one with the smaller u_0 first is taken, of weight 3 that with the largest root."""
    g, p = curve.g, curve.p
    divisors = all_divisors(curve)
    pairs = {divisor: [] for divisor in divisors}
    points = [a for a in divisors if r.weight(a) == 1]
    for a in points:
        for b in divisors:
            if 1 <= r.weight(b) < g:
                total = r.Divisor(*ideals.sum_by_ideals(g, p, curve.f, a, b))
                if r.weight(total) == 1 + r.weight(b):
                    pairs[total].append((a, b))
    for divisor, found in pairs.items():
        if r.weight(divisor) == 2:
            found = {(a, b) for a, b in found if a.u[0] <= b.u[0]}
        else:
            largest = max((-a.u[0] % p for a, _ in found), default=None)
            found = {(a, b) for a, b in found if -a.u[0] % p == largest}
        assert len(found) <= 1, "two ways to split a divisor"
        yield divisor, found.pop() if found else None
