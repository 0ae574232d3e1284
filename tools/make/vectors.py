#!/usr/bin/env python3
"""vectors.py: makes the input and the expected output of the program `test_vectors`, and counts what they cover. The expected output
ends with the lines of the street corners, whose input corners.py makes.

    python3 tools/make/vectors.py SEED             writes both files and prints the census
    python3 tools/make/vectors.py SEED --check     writes nothing: reads both files again, answers every frame again, sums
                                              again by ideals.py, makes all anew from SEED, compares, prints the census
    --input PATH, --expected PATH             other files than crates/test_vectors/data/vectors (in parts, vectors.a, vectors.b and
                                              on) and crates/test_vectors/stdout

Exit 1 if the census falls short of what it must cover (`shortfalls` below) or if a check fails. The format is
described in frames.py, the answers are reference.py's. The same SEED gives the same bytes.
"""
import argparse
import hashlib
import itertools
import os
import sys
from collections import Counter, defaultdict

sys.path.append(os.path.join(os.path.dirname(os.path.abspath(__file__)), "..", "reference"))
import classes
import corners
import ideals
import orders
import reference as r
import splits
import witnesses
from corner_table import (
    BROKEN_ORDERS, BY_FIFTEEN, BY_LARGEST, BY_LARGEST_LISTED, BY_LONG_2, BY_LONG_3, BY_MANY, BY_MORE, BY_OVER, BY_SAFE, BY_TWOS,
    BY_VERSION_1S_LARGEST, FIFTEEN, LARGEST, LARGEST_LISTED, LISTS_MORE, LONG_2, LONG_3, MANY, ORDERS, OVER, SAFE, TWOS, power_and_1,
)  # fmt: skip
from frames import (
    ADD, CALLS, CHECK_CURVE, CHECK_DIVISOR, CHECK_ORDER, DOUBLE, FIRST_REPEAT, GUARD, MOST_OUTPUT, MULTIPLY, NAMES, NEXT_DIVISOR, OPPOSITE,
    READ_POLE_FILE, REWRITE_CURVE, REWRITE_DIVISOR, SCAN, SPLIT, TOTAL_BATCH, WITH_OUTPUT, WRITE_POLE_FILE, Frame, answer, decoded, encoded,
    in_parts, most_output, part_paths, read_parts, text_of,
)  # fmt: skip
from records import curve_record, divisor_record, in_4_bytes, pole_file, scan_record

PRIMES = classes.PRIMES
GENERA = (2, 3)
# Of input, which stands in the repository, with the expected text and some 122,000 of the corners: a bound to keep the program quick, and to stay
# within 26 parts. W-201's composite numbers are 112,000 of it, W-213's splits 246,000, W-211's steps 91,000, W-209's pole files 182,000.
MOST_BYTES = 1600000
ENOUGH = 20  # of each main kind of sum, per genus and prime
NEUTRAL_RECORD = r.write_divisor(r.NEUTRAL)
NUMBERS = tuple(range(16)) + tuple(range(18, 28))  # that the calls answer
# Primes of version 2, with witnesses
LARGE = {2147483647: BY_VERSION_1S_LARGEST, LARGEST: BY_LARGEST, TWOS: BY_TWOS, FIFTEEN: BY_FIFTEEN}


class Dice:
    """Numbers drawn from SHA-256 of the seed and a counter: no library's generator, so always the same."""

    def __init__(self, seed):
        self.seed, self.counter, self.poles = seed, 0, 0

    def drawn(self, what):
        return int.from_bytes(hashlib.sha256(b"%s %s" % (self.seed.encode(), what)).digest(), "big")

    def below(self, n):
        self.counter += 1
        return self.drawn(b"%d" % self.counter) % n

    def pole(self):
        """A pole's number, by a counter of its own."""
        self.poles += 1
        number = self.drawn(b"pole %d" % self.poles)
        return (0, 1, 2**31, 2**32 - 1, number // 8 % 1000, number // 8 % 2**32, number // 8 % 2**32, number // 8 % 2**16)[number % 8]

    def pick(self, things):
        return things[self.below(len(things))]

    def turned(self, things):
        things = list(things)
        for i in range(len(things) - 1, 0, -1):
            j = self.below(i + 1)
            things[i], things[j] = things[j], things[i]
        return things

    def some_bytes(self, n):
        return bytes(self.below(256) for _ in range(n))


# ---------------------------------------------------------------------------------------------------------
# Curves and divisors to draw from
# ---------------------------------------------------------------------------------------------------------


def square_root(a, p):
    """A root of a modulo p, or None; Tonelli and Shanks, which is one power where p = 3 modulo 4."""
    a %= p
    if a == 0:
        return 0
    if pow(a, (p - 1) // 2, p) != 1:
        return None
    odd, twos = p - 1, 0
    while odd % 2 == 0:
        odd, twos = odd // 2, twos + 1
    stranger = next(n for n in range(2, p) if pow(n, (p - 1) // 2, p) == p - 1) if p > 3 else 2
    power, root, left = pow(stranger, odd, p), pow(a, (odd + 1) // 2, p), pow(a, odd, p)
    while left != 1:
        steps, t = 0, left
        while t != 1:
            t, steps = t * t % p, steps + 1
        factor = pow(power, 1 << (twos - steps - 1), p)
        root, left = root * factor % p, left * factor * factor % p
        power, twos = factor * factor % p, steps
    return root


def drawn_curve(dice, g, p, roots, top):
    """An accepted curve whose f has the given number of drawn roots and f_2g = 0 or not, as top says."""
    for _ in range(4000):
        f = r.ONE
        chosen = []
        while len(chosen) < min(roots, p):
            x = dice.below(p)
            if x not in chosen:
                chosen.append(x)
                f = r.times(f, (-x % p, 1), p)
        rest = tuple(dice.below(p) for _ in range(2 * g + 1 - len(chosen))) + (1,)
        f = r.times(f, rest, p)
        if not top:
            # f_2g = 0: choose the rest's second coefficient so that it cancels
            rest = rest[:-2] + ((rest[-2] - f[2 * g]) % p, 1)
            f = r.ONE
            for x in chosen:
                f = r.times(f, (-x % p, 1), p)
            f = r.times(f, rest, p)
        if (f[2 * g] != 0) == top and not r.has_repeated_factor(f, p):
            return r.Curve(g, p, f), chosen
    raise ValueError("no such curve")


class Pool:
    """A curve with its record and divisors on it, to draw from."""

    def __init__(self, dice, curve, known_roots):
        self.dice, self.curve, self.record = dice, curve, r.write_curve(curve)
        p = curve.p
        tries = range(p) if p < 2000 else [dice.below(p) for _ in range(60)] + known_roots
        self.points, self.flats = [], []  # weight 1 with y ≠ 0, one of each pair; weight 1 with y = 0
        for x in tries:
            y = square_root(r.value_at(curve.f, x, p), p)
            if y == 0:
                self.flats.append(r.Divisor((-x % p, 1), r.ZERO))
            elif y is not None:
                self.points.append(r.Divisor((-x % p, 1), (y,)))
        self.whole = self.every_divisor() if p <= 5 else None
        self.grown = list(self.points[:6]) + list(self.flats[:3])
        self.has_divisors = bool(self.whole or self.points)
        if not self.whole and self.points:
            for _ in range(24):
                self.grown.append(r.sum_of(curve, dice.pick(self.grown), dice.pick(self.grown)))
            self.grown = self.grown[-18:]

    def every_divisor(self):
        """On the smallest primes: all valid divisors there are."""
        g, p = self.curve.g, self.curve.p
        found = []
        for w in range(g + 1):
            for u in itertools.product(range(p), repeat=w):
                for v in itertools.product(range(p), repeat=w):
                    v = r.polynomial(v, p)
                    if r.divides_f_less_v_squared(self.curve, u + (1,), v):
                        found.append(r.Divisor(u + (1,), v))
        return found

    def opposite(self, a):
        return r.opposite_of(self.curve, a)

    def sum(self, *divisors):
        return r.total_of(self.curve, divisors)

    def anything(self):
        """Any divisor: from the whole group where it is small, otherwise grown by sums."""
        if self.whole:
            return self.dice.pick(self.whole)
        return self.sum(self.dice.pick(self.grown), self.dice.pick(self.grown))

    def heavy(self):
        """Any divisor that isn't neutral."""
        while True:
            a = self.anything()
            if a != r.NEUTRAL:
                return a

    def to_split(self, can_be):
        """A divisor that isn't neutral and can be split, or can't."""
        while True:
            a = self.heavy()
            if (r.parts_of(self.curve, a) is not None) == can_be:
                return a

    def to_follow(self, last):
        """The last divisor of all, or one that isn't; where there is no census, any. None is neutral."""
        if self.curve.p > r.GREATEST_FOR_TRAINING:
            return self.heavy()
        *before, end = splits.all_divisors(self.curve)
        return end if last else self.dice.pick(before[1:])

    def signed_points(self, n):
        """At most n points over different x, each with a drawn sign."""
        chosen = self.dice.turned(self.points)[:n] if len(self.points) < 20 else []
        while len(chosen) < n and len(self.points) >= 20:
            point = self.dice.pick(self.points)
            if point not in chosen:
                chosen.append(point)
        return [a if self.dice.below(2) else self.opposite(a) for a in chosen]


# The kinds of pairs to sum. Each is a recipe that draws a pair; what a pair really is, `kinds_of_sum` says.


def some(dice, things, most):
    """From the front of the list, at most `most`, at least none."""
    return things[: dice.below(most + 1)]


def recipe_tangent(pool):
    """A point in both, with the same y."""
    g, dice = pool.curve.g, pool.dice
    points = pool.signed_points(2 * g - 1)
    if not points:
        return None
    shared = [points[0]] * (1 + dice.below(2)) if g == 3 or dice.below(2) else points[:1]
    left = some(dice, points[1:g], g - len(shared))
    right = some(dice, points[g:], g - 1)
    return pool.sum(*shared, *left), pool.sum(points[0], *right)


def recipe_cancelling(pool):
    """Points in one and their opposites in the other, perhaps one of them twice, perhaps beside a point that both
    hold."""
    g, dice = pool.curve.g, pool.dice
    points = pool.signed_points(2 * g)
    if len(points) < 2:
        return None
    undone = [points[0]]
    if g == 3 and dice.below(2):
        undone.append(points[dice.below(2)])
    left, right = undone, [pool.opposite(a) for a in undone]
    if dice.below(2) and points[1] not in undone:
        left, right = left + [points[1]], right + [points[1]]
    left = left + some(dice, points[2:][: g - len(left)], 2)
    right = right + some(dice, points[g + 1 :][: g - len(right)], 2)
    return pool.sum(*left), pool.sum(*right)


def recipe_opposite(pool):
    a = pool.anything() if pool.dice.below(3) else pool.sum(*pool.signed_points(1))
    return a, pool.opposite(a)


def recipe_same(pool):
    a = pool.anything()
    return a, a


def recipe_flat(pool):
    """Points with y = 0 in one or both."""
    g, dice = pool.curve.g, pool.dice
    if not pool.flats:
        return None
    flats, points = dice.turned(pool.flats), pool.signed_points(2 * g)
    left = flats[: 1 + dice.below(2)]
    left += some(dice, points[:g], g - len(left))
    right = flats[dice.below(2) :][: dice.below(3)]
    right += some(dice, points[g:], g - len(right))
    return pool.sum(*left), pool.sum(*right)


def recipe_light(pool):
    """A weight below g on one side or on both."""
    dice = pool.dice
    light = dice.pick([r.NEUTRAL, pool.sum(*pool.signed_points(1 + dice.below(pool.curve.g - 1)))])
    other = pool.anything() if dice.below(2) else pool.sum(*pool.signed_points(1))
    return (light, other) if dice.below(2) else (other, light)


def recipe_light_result(pool):
    """A result of weight below g: (c + light) and the opposite of c."""
    c, light = pool.anything(), pool.sum(*pool.signed_points(pool.dice.below(pool.curve.g)))
    if pool.dice.below(2):
        c = pool.sum(*pool.signed_points(2))
    return pool.sum(c, light), pool.opposite(c)


def recipe_anything(pool):
    return pool.anything(), pool.anything()


def recipe_beside(pool):
    """A common part of any form, also without a point over p: c and c + a point, or c and point - c."""
    c, points = pool.anything(), pool.signed_points(1)
    if r.weight(c) >= pool.curve.g and pool.whole:
        c = pool.dice.pick([a for a in pool.whole if r.weight(a) < pool.curve.g])
    return (pool.sum(c, *points), c) if pool.dice.below(2) else (pool.sum(c, *points), pool.opposite(c))


RECIPES = (
    recipe_tangent, recipe_cancelling, recipe_opposite, recipe_same, recipe_flat, recipe_light, recipe_light_result,
    recipe_anything, recipe_beside,
)  # fmt: skip

SHARED, SHARED_TANGENT, SHARED_CANCELLING = "shared root", "shared, d = 1", "shared, d ≠ 1"
OPPOSITES, FLAT, LIGHT, LIGHT_RESULT = "opposite", "y = 0", "weight < g in", "weight < g out"
TOP, NO_TOP, TWO_STEPS, COPRIME = "f_2g ≠ 0", "f_2g = 0", "two reductions", "coprime"
# How many there must be of each, per genus and prime.
KINDS = {
    SHARED: ENOUGH, SHARED_TANGENT: 8, SHARED_CANCELLING: 8, OPPOSITES: ENOUGH, FLAT: ENOUGH, LIGHT: ENOUGH,
    LIGHT_RESULT: ENOUGH, TOP: ENOUGH, NO_TOP: 8, TWO_STEPS: ENOUGH, COPRIME: 8,
}  # fmt: skip


def has_flat_point(curve, a):
    """A point with y = 0 over some extension: u and v share a factor."""
    return r.degree(r.greatest_common_divisor(a.u, a.v, curve.p)[0]) >= 1


def kinds_of_sum(curve, a, b):
    p, g = curve.p, curve.g
    kinds = {TOP if curve.f[2 * g] else NO_TOP}
    common = r.greatest_common_divisor(a.u, b.u, p)[0]
    if r.degree(common) >= 1:
        d = r.greatest_common_divisor(common, r.plus(a.v, b.v, p), p)[0]
        kinds |= {SHARED, SHARED_TANGENT if d == r.ONE else SHARED_CANCELLING}
    else:
        kinds.add(COPRIME)
    result, steps = r.sum_and_steps(curve, a, b)
    if result == r.NEUTRAL and a != r.NEUTRAL:
        kinds.add(OPPOSITES)
    if has_flat_point(curve, a) or has_flat_point(curve, b):
        kinds.add(FLAT)
    if r.weight(a) < g or r.weight(b) < g:
        kinds.add(LIGHT)
    if r.weight(result) < g:
        kinds.add(LIGHT_RESULT)
    if steps == 2:
        kinds.add(TWO_STEPS)
    return kinds


def shape_of_sum(curve, a, b):
    """The way a sum takes: g, degree of d, degree composed, reductions, weight of the result."""
    composed = r.compose(curve, a, b)
    result, steps = r.reduce(curve, composed)
    cancelled = (r.weight(a) + r.weight(b) - r.weight(composed)) // 2
    return curve.g, cancelled, r.weight(composed), steps, r.weight(result)


# All the shapes there are. Composed degree m above g leaves max(2g + 1, 2·deg v) - m, with deg v < m.
SHAPES = (
    [(2, 0, w, 0, w) for w in (0, 1, 2)] + [(2, 0, 3, 1, 2), (2, 0, 4, 1, 1), (2, 0, 4, 1, 2)]
    + [(2, 1, w, 0, w) for w in (0, 1, 2)] + [(2, 2, 0, 0, 0)]
    + [(3, 0, w, 0, w) for w in (0, 1, 2, 3)] + [(3, 0, 4, 1, 3), (3, 0, 5, 1, 2), (3, 0, 5, 1, 3)]
    + [(3, 0, 6, 1, 1), (3, 0, 6, 1, 2), (3, 0, 6, 2, 3)]
    + [(3, 1, w, 0, w) for w in (0, 1, 2, 3)] + [(3, 1, 4, 1, 3)] + [(3, 2, w, 0, w) for w in (0, 1, 2)] + [(3, 3, 0, 0, 0)]
)  # fmt: skip
ASKED_SHAPES = 2  # of each shape, per prime, where the tries come by them


# ---------------------------------------------------------------------------------------------------------
# Frames that are done
# ---------------------------------------------------------------------------------------------------------


class Collection:
    def __init__(self):
        self.frames, self.seen, self.orders, self.classes = [], set(), Counter(), Counter()

    def put(self, frame):
        """Takes a frame once; says whether it was new."""
        if frame in self.seen:
            return False
        self.seen.add(frame)
        self.frames.append(frame)
        return True


def enough_output(dice, need):
    """An output that fits: exactly, by one byte more, by a few, seldom by many."""
    if dice.below(32) == 0:
        return need + 1 + dice.below(MOST_OUTPUT - need)
    return dice.pick([need, need, need + 1, need + 2 + dice.below(4)])


def any_output(dice, need):
    """Mostly one that fits, sometimes one byte short, shorter, or empty."""
    return dice.pick([enough_output(dice, need)] * 5 + [need - 1, dice.below(need), 0])


def need_of(frame):
    """The length of the result, for a frame that a large output lets succeed; 0 where none does (19)."""
    fields, _ = answer(frame._replace(output=most_output(frame.operation)))
    return fields[2]


def put_with_outputs(dice, collection, frame, outputs):
    need = need_of(frame) or 1
    for output in outputs:
        collection.put(frame._replace(output=output(dice, need)))


def pools_for(dice, g, p):
    """Curves of each sort: f_2g zero or not, with roots and without, x^(2g+1) + 1, and all f_i = p - 1."""
    shapes = [(0, True), (1, True), (2, True), (3, True), (3, False), (0, False)]
    if p < 14:
        shapes += [(1, True), (2, True), (0, True), (1, False)]
    pools = []
    for roots, top in shapes:
        pool = Pool(dice, *drawn_curve(dice, g, p, roots, top))
        while not pool.has_divisors:
            pool = Pool(dice, *drawn_curve(dice, g, p, roots, top))
        pools.append(pool)
    for stored in ((1,) + (0,) * (2 * g), (p - 1,) * (2 * g + 1)):
        f = stored + (1,)
        if not r.has_repeated_factor(f, p):
            pools.append(Pool(dice, r.Curve(g, p, f), []))
    return [pool for pool in pools if pool.has_divisors]


def put_sum(dice, collection, curve, a, b):
    """A sum, or a double where b is None, that is done; says whether it was new, and counts its class then."""
    records = [r.write_divisor(divisor) for divisor in (a, b) if divisor is not None]
    frame = Frame(DOUBLE if b is None else ADD, r.write_curve(curve), *records)
    new = collection.put(frame._replace(output=enough_output(dice, need_of(frame))))
    if new:
        collection.classes[classes.class_of(curve, a, b)] += 1
    return new


def put_classes(dice, collection, g, p):
    """Pairs of the classes that a formula must tell apart, until there are as many as are asked for by this prime. Answers the
    kinds of the sums."""
    kinds = Counter()
    for key in classes.CLASSES:
        while key[0] == g and collection.classes[key] < classes.asked(key, p):
            drawn = classes.drawn(dice, key, p)
            if drawn is None:
                break
            if put_sum(dice, collection, *drawn) and key[1] == "add":
                kinds.update(kinds_of_sum(*drawn) | {shape_of_sum(*drawn)})
    return kinds


def put_sums(dice, collection, g, p, pools, counts):
    """Sums of every kind and shape; `counts` has those that are there."""
    wanted = {**KINDS, **{shape: ASKED_SHAPES for shape in SHAPES}}
    if g == 2:
        wanted[TWO_STEPS] = 0  # never more than g - 1 reductions
    collection.put(Frame(ADD, pools[0].record, NEUTRAL_RECORD, NEUTRAL_RECORD, 1))
    tries = 0
    while tries < 1000 or any(counts[k] < n for k, n in KINDS.items() if wanted[k]) and tries < 6000:
        pool, recipe = pools[tries % len(pools)], RECIPES[(tries // len(pools)) % len(RECIPES)]
        tries += 1
        pair = recipe(pool)
        if pair is None:
            continue
        # Few sums that are many things at once: the first tries take only what fills several gaps.
        kinds = kinds_of_sum(pool.curve, *pair) | {shape_of_sum(pool.curve, *pair)}
        if sum(counts[k] < wanted[k] for k in kinds) < (3 if tries < 300 else 2 if tries < 600 else 1):
            continue
        if put_sum(dice, collection, pool.curve, *pair):
            counts.update(kinds)
            if dice.below(16) == 0:
                frame = Frame(ADD, pool.record, *map(r.write_divisor, pair))
                need = need_of(frame)
                collection.put(frame._replace(output=dice.pick([need - 1, dice.below(need), 0])))


def put_doubles_and_opposites(dice, collection, pools):
    for n in range(12):
        pool = pools[n % len(pools)]
        a = pool.anything()
        if n % 3 == 0 and pool.flats:
            a = pool.sum(dice.pick(pool.flats), *some(dice, pool.signed_points(2), pool.curve.g - 1))
        elif n % 3 == 1:
            a = pool.sum(*pool.signed_points(1 + dice.below(pool.curve.g)))
        if n % 3 == 1 or n % 4 == 0:
            put_sum(dice, collection, pool.curve, a, None)
        outputs = [enough_output] if n % 4 else [enough_output, any_output]
        if n % 4 == 0:
            put_with_outputs(dice, collection, Frame(DOUBLE, pool.record, r.write_divisor(a)), [any_output])
        if n % 2 == 0:
            put_with_outputs(dice, collection, Frame(OPPOSITE, pool.record, r.write_divisor(a)), outputs)


def put_checks(dice, collection, pools):
    for n, pool in enumerate(pools[:3]):
        a = r.write_divisor(pool.anything())
        collection.put(Frame(CHECK_CURVE, pool.record))
        collection.put(Frame(CHECK_DIVISOR, pool.record, a))
        put_with_outputs(dice, collection, Frame(REWRITE_CURVE, pool.record), [any_output])
        put_with_outputs(dice, collection, Frame(REWRITE_DIVISOR, pool.record, a), [any_output])


# Among them the largest of all, the largest with 256 signed digits, and the least with 257
SCALARS = [
    b"", b"\0", bytes(32), b"\1", b"\0\0\1", b"\2", b"\3", b"\7", b"\x0b", b"\xff", b"\xff" * 32, b"\xaa" * 32,
    b"\xaa" * 31 + b"\xab", bytes(31) + b"\5",
]  # fmt: skip


def put_multiples(dice, collection, pools):
    scalars = dice.turned(SCALARS)[:6] + [dice.some_bytes(1 + dice.below(4)) for _ in range(2)]
    scalars += [dice.some_bytes(8), dice.some_bytes(20), dice.some_bytes(32), b"\xff" * dice.pick([8, 16, 32])]
    for n, scalar in enumerate(scalars):
        pool = pools[n % len(pools)]
        a = r.write_divisor(pool.sum(*pool.signed_points(1)) if n % 3 == 0 else pool.anything())
        output = enough_output if n % 4 else any_output
        put_with_outputs(dice, collection, Frame(MULTIPLY, pool.record, a, scalar), [output])
        if pool.whole and n % 2 == 0:
            # about the order of the group, written with leading zeros: the opposite comes out, the neutral, which is 19, the same
            about = (len(pool.whole) + n % 3 - 1).to_bytes(2 + dice.below(6), "big")
            put_with_outputs(dice, collection, Frame(MULTIPLY, pool.record, a, about), [enough_output])


def put_keys(dice, collection, pools):
    """19 with a scalar that fits and one that doesn't, with an output and without: the divisor is neutral, the scalar is 0, or the
    multiple is neutral, by the order of the group where it is known and by 2 where y = 0."""
    for pool in pools:
        heavy = r.write_divisor(pool.heavy())
        keys = [(NEUTRAL_RECORD, dice.some_bytes(3)), (heavy, dice.pick([b"", b"\0"]))]
        if pool.whole:
            keys.append((heavy, len(pool.whole).to_bytes(2, "big")))
        if pool.flats:
            keys.append((r.write_divisor(dice.pick(pool.flats)), b"\2"))
        for a, scalar in keys:
            for fitted, output in itertools.product((scalar, scalar.rjust(33, b"\0")), (0, 49)):
                collection.put(Frame(MULTIPLY, pool.record, a, fitted, output))


def order_below_four(curve, a):
    """2 or 3 for a divisor of that order, else 0."""
    orders = [n for n in (1, 2, 3) if r.multiple_of(curve, a, n)[0] == r.NEUTRAL]
    return orders[0] if orders and orders[0] > 1 else 0


def put_small_orders(dice, collection, pools_of):
    """Divisors of order 2 and 3: partial multiples are neutral, also where the opposite is added."""
    for g, order in itertools.product(GENERA, (2, 3)):
        whole = [(pool, a) for p in (3, 5) for pool in pools_of[g, p] for a in pool.whole or ()]
        those = [(pool, a) for pool, a in dice.turned(whole) if order_below_four(pool.curve, a) == order]
        for n, scalar in enumerate((b"\3", b"\5", b"\7", b"\0\x0b", b"\xfe", b"\xff" * 32)):
            pool, a = those[n % len(those)]
            collection.put(Frame(MULTIPLY, pool.record, r.write_divisor(a), scalar, 49))


def drawn_batch(dice, pool, length):
    """Records of all weights; some are drawn twice, some undo another."""
    taken = []
    for _ in range(length):
        kind = dice.below(7)
        if kind == 0 and taken:
            taken.append(dice.pick(taken))
        elif kind == 1 and taken:
            taken.append(pool.opposite(dice.pick(taken)))
        elif kind == 2:
            taken.append(r.NEUTRAL)
        elif kind == 3:
            taken.append(pool.sum(*pool.signed_points(1)))
        else:
            taken.append(pool.anything())
    return taken


def put_batches(dice, collection, pools):
    for n, length in enumerate((0, 1, 2, 3, 5, 12)):
        pool = pools[n % len(pools)]
        batch = b"".join(map(r.write_divisor, drawn_batch(dice, pool, length)))
        put_with_outputs(dice, collection, Frame(TOTAL_BATCH, pool.record, batch), [any_output if n == 1 else enough_output])
        if n % 2:
            collection.put(Frame(FIRST_REPEAT, pool.record, batch))
        # different divisors, some of them opposite, or the same with one of them again
        different = sorted(set(drawn_batch(dice, pool, length) + [pool.anything() for _ in range(3)]))
        records = [r.write_divisor(a) for a in dice.turned(different)[: length + 1]]
        for _ in range(1 + dice.below(2) if n % 2 else 0):
            records.insert(dice.below(len(records) + 1), dice.pick(records))
        collection.put(Frame(FIRST_REPEAT, pool.record, b"".join(records)))
        # a last record that is cut
        record = r.write_divisor(pool.heavy())
        cut = batch + dice.pick([record[:-1], record[: 1 + dice.below(len(record) - 1)]])
        collection.put(Frame(TOTAL_BATCH, pool.record, cut, b"", 3) if n % 2 else Frame(FIRST_REPEAT, pool.record, cut))


def scan_of(pool, record, total, pole=None):
    """A scan into the total, for its own pole where nothing else is said."""
    return Frame(SCAN, pool.record, scan_record(total[8] if pole is None else pole, record), b"", 0, total)


def put_scans(dice, collection, pools):
    for n in range(2):
        pool, total = pools[n % len(pools)], r.fresh_total(dice.pole())
        for a in drawn_batch(dice, pool, 4):
            frame = scan_of(pool, r.write_divisor(a), total)
            collection.put(frame)
            total = answer(frame)[0][3:]
    for count in (0, 1, 4095, 4096, 4097, 2 + dice.below(4000)):
        # a total whose divisor and count needn't fit each other
        pool = dice.pick(pools)
        held = pool.anything()
        a = pool.anything() if dice.below(3) else pool.opposite(held)
        collection.put(scan_of(pool, r.write_divisor(a), r.flat_total(held, count, dice.pole())))


def put_mixed_scans(dice, collection, pools):
    """A list of meters on three poles, scanned whole into the totals of two of them."""
    for pool in pools:
        one, other, third = poles = [dice.pole() for _ in range(2)] + [dice.pole() // 2 + 7]
        other = poles[1] = other if other != one else one ^ 1 << dice.below(32)
        totals = [r.fresh_total(one), r.fresh_total(other)]
        for n, a in enumerate(drawn_batch(dice, pool, 7)):
            for k, total in enumerate(totals):
                frame = scan_of(pool, r.write_divisor(a), total, (one, other, one, third, other, one, other)[n])
                collection.put(frame)
                totals[k] = answer(frame)[0][3:]


# ---------------------------------------------------------------------------------------------------------
# Frames that are refused, with one fault and with two
# ---------------------------------------------------------------------------------------------------------

# Faults of a curve record in their order, by version. 1 stands twice: short (a) and of a wrong length (b), in version 2 also before k
# (k), where 18 stands for k itself (k) and for the witness.
CURVE_FAULTS = {
    1: ("1a", "2", "3", "4", "1b", "5", "6", "7"),
    2: ("1a", "2", "3", "4", "1k", "18k", "1b", "5", "18", "6", "7"),
}
# Faults of a divisor record; 8 stands twice: empty (a) and of a wrong length (b).
DIVISOR_FAULTS = ("8a", "9", "8b", "10", "11")

WRONG_MARKS = (b"HJD", b"hjc", b"\0\0\0", b"CJH", b"HKC", b"IJC", b"HJ\xc3")
WRONG_VERSIONS = (0, 3, 256, 257, 258, 65535)
WRONG_GENERA = (0, 1, 4, 5, 130, 255)
WRONG_PRIMES = (
    0, 1, 2, 4, 8, 9, 15, 25, 49, 121, 561, 65536, 25326001, 46337 * 46337, 46327 * 46337, 2147483645, 2147483646,
    2147483648, 2147483649, 2147483659, 4294967291, 4294967296 + 7, 2305843009213693951, 2**63, 2**64 - 1,
)  # fmt: skip


def number_of(fault):
    return int(fault.rstrip("abcekprs"))


# Even, or out of version 2's range
NOT_IN_VERSION_2 = (0, 1, 2, 4, 6, 8, 2147483648, 2**61 - 2, 2**61, 2**61 + 1, 2**61 + 15, 2**63, 2**64 - 1)


def faulty_witness(dice, p, a, primes):
    """p, a base and a list with something wrong."""
    i = dice.below(len(primes))
    wrong = [
        (p, dice.pick([0, 1, p, p + a, 2**64 - 1]), primes),
        (p, pow(a, primes[i], p), primes),  # of a lower order
        (p, a, primes[:i] + (primes[i] * primes[-1],) + primes[i + 1 :]),  # no prime
        (p, a, primes[:i] + primes[i:][::-1] if i + 1 < len(primes) else primes + primes[-1:]),  # falling, or one twice
        (p, a, primes + (dice.pick([1009, 2147483659, 2**31, 2**64 - 1]),)),  # doesn't divide p - 1
        (p, a, dice.pick([(0,), (1,)]) + primes),
        (561, 2, (2, 5, 7)),
    ]
    if len(primes) > 1:
        wrong.append((p, a, primes[:i] + primes[i + 1 :]))
    p, a, primes = dice.pick(wrong)
    return p, (a, primes[:15])


def faulty_curve(dice, curve, faults):
    """The curve's record with all the given faults at once, or None where they can't go together."""
    g, p, stored, witness = curve.g, curve.p, list(curve.f[:-1]), curve.witness
    mark, version, genus, k = b"HJC", 1 if witness is None else 2, g, None
    if "1k" in faults and {"18k", "1b", "5", "18", "6", "7"} & set(faults):
        return None  # there is no k, and all the rest is 1
    if "18" in faults:
        p, witness = faulty_witness(dice, p, *witness)
    if "18k" in faults:
        k = dice.pick([0, 16, 17, 255])
    if "7" in faults:
        stored = [0] * len(stored) if dice.below(2) else [0, 0] + stored[2:]
    if "5" in faults:
        p = dice.pick(WRONG_PRIMES if witness is None else NOT_IN_VERSION_2)
    if "6" in faults:
        i = dice.below(len(stored))
        stored[i] = dice.pick([p, p + 1, p + stored[i], 2**64 - 1])
        stored[i] = min(stored[i], 2**64 - 1)
    elif "5" in faults:
        stored = [c % p if p else c for c in stored]
    if "2" in faults:
        mark = dice.pick(WRONG_MARKS)
    if "3" in faults:
        version = dice.pick(WRONG_VERSIONS)
    if "4" in faults:
        genus = dice.pick(WRONG_GENERA)
    record = curve_record(genus, p, stored, mark, version, witness, k)
    if "1b" in faults:
        least = 14 if witness is None else 14 + 8 * len(stored) + 9
        record = dice.pick([record[:-1], record + b"\0", record + bytes(16), record[: max(least, len(record) - 16)]])
        if witness is None and record[5:6] in (b"\2", b"\3") and len(record) == {2: 54, 3: 70}[record[5]]:
            record += b"\0"
    if "1k" in faults:
        record = record[: 14 + 8 * len(stored) + dice.below(9)]
    if "1a" in faults:
        if set(faults) & {"4", "1k", "18k", "1b", "5", "18", "6", "7"}:
            return None
        least = 5 if "3" in faults else 3 if "2" in faults else 0
        record = record[: least + dice.below(6 - least)]
    return record


def faulty_divisor(dice, curve, a, faults, in_batch=False):
    """A record with all the given faults at once, made from the divisor a, which isn't neutral; None where they
    can't go together. In a batch a wrong length can only be a cut."""
    g, p, w = curve.g, curve.p, r.weight(a)
    if "8a" in faults:
        return None if in_batch or len(faults) > 1 else b""
    u, v = list(a.u[:w]), list(a.v) + [0] * (w - len(a.v))
    if "11" in faults:
        wrong = [
            (i, c) for i in range(w) for c in (0, 1, 2, p - 1)
            if not r.divides_f_less_v_squared(curve, a.u, r.polynomial(v[:i] + [c] + v[i + 1 :], p))
        ]  # fmt: skip
        if not wrong:
            return None
        i, c = dice.pick(wrong)
        v[i] = c
    weight_byte = w
    if "9" in faults:
        weight_byte = dice.pick([g + 1, g + 1, g + 2, 128, 255])
        if weight_byte == g + 1 and "8b" not in faults:
            u, v = (n + [0] * (g + 1 - w) for n in (u, v))
    if "10" in faults:
        row = dice.pick([u, v])
        i = dice.below(len(row))
        row[i] = dice.pick([row[i] + p, p, 2**64 - 1])  # the first would be taken if it were reduced modulo p
    record = divisor_record(u, v, weight_byte)
    if "8b" in faults:
        cuts = [record[:-1], record[:-8], record[: 1 + dice.below(len(record) - 1)]]
        record = dice.pick(cuts if in_batch else cuts + [record + b"\0", record + bytes(16)])
    return record


BATCHES = (TOTAL_BATCH, FIRST_REPEAT, WRITE_POLE_FILE)


class Base:
    """One good call of an operation and its stages: where a fault may stand, in document 01's order."""

    def __init__(self, dice, operation, pool, version):
        self.dice, self.operation, self.pool = dice, operation, pool
        stages = [("curve", fault) for fault in CURVE_FAULTS[version]]
        first = [("first", fault) for fault in DIVISOR_FAULTS]
        second = [("second", fault) for fault in DIVISOR_FAULTS]
        if operation in (CHECK_DIVISOR, REWRITE_DIVISOR, DOUBLE, OPPOSITE, MULTIPLY, CHECK_ORDER, SPLIT):
            stages += first
        elif operation == NEXT_DIVISOR:
            stages += [("training", "25")] + first + [("last", "24")]
        elif operation in (ADD, *BATCHES):
            stages += first + second
        elif operation == SCAN:
            stages += [("total", "15"), ("total", "14"), ("pole", "8p"), ("pole", "20")] + first
        if operation == MULTIPLY:
            stages += [("scalar", "12"), ("key", "19")]
        if operation == CHECK_ORDER:
            stages += [("scalar", "12"), ("order", "27")]
        if operation == SPLIT:
            stages.append(("split", "26"))
        if operation in WITH_OUTPUT:
            stages.append(("output", "13"))
        self.stages = stages

    def divisor(self, faults, in_batch=False, of=None):
        a = of or self.pool.heavy()
        if not faults:
            return r.write_divisor(a)
        return faulty_divisor(self.dice, self.pool.curve, a, faults, in_batch)

    def order(self, a, too_long, wrong):
        """An order's bytes and its list's: of the divisor a, as it was before any fault."""
        n, primes = order_and_primes(self.pool.curve, a)
        listed = in_4_bytes(primes)
        if wrong:
            n, listed = self.dice.pick(orders.wrong(self.dice, n, primes))
        return orders.in_bytes(n).rjust(33 if too_long else 0, b"\0"), listed

    def frame(self, faults):
        """The frame with these faults and the place that the first of them must give; None where they can't go
        together."""
        dice, operation, pool = self.dice, self.operation, self.pool
        by_part = {part: [f for where, f in faults if where == part] for part, _ in self.stages}
        curve = faulty_curve(dice, pool.curve, by_part["curve"]) if by_part["curve"] else pool.record
        if curve is None:
            return None
        first = second = primes = b""
        known = None
        if operation == CHECK_ORDER:
            known = pool.heavy()
        if operation == SPLIT:
            known = pool.to_split(not by_part["split"])
        if operation == NEXT_DIVISOR:
            if (pool.curve.p > r.GREATEST_FOR_TRAINING) != bool(by_part["training"]):
                return None
            known = pool.to_follow(by_part["last"])
        total, places, pole = None, {"pole": 1, "first": 1, "second": 2}, None
        if operation in BATCHES:
            batch = self.batch(by_part, places)
            if batch is None:
                return None
            first = b"".join(batch)
            pole = dice.pole() if operation == WRITE_POLE_FILE else None
        else:
            if any(part == "first" for part, _ in self.stages):
                first = self.divisor(by_part["first"], of=known)
            if operation == ADD:
                second = self.divisor(by_part["second"])
            if first is None or second is None:
                return None
        if operation == MULTIPLY:
            if by_part["key"]:
                # a neutral divisor, where it needn't be faulty, or scalar 0
                second = b"" if dice.below(2) else bytes(1 + dice.below(32))
                if not by_part["first"] and dice.below(2):
                    first, second = NEUTRAL_RECORD, dice.some_bytes(3)
            else:
                second = dice.some_bytes(3)
                while answer(Frame(MULTIPLY, curve, first, second, MOST_OUTPUT))[0][0] == 19:
                    second = dice.some_bytes(3)
            if by_part["scalar"] and by_part["key"]:
                second = second.rjust(33, b"\0")
            elif by_part["scalar"]:
                second = dice.pick([bytes(33), b"\0" + dice.some_bytes(32), dice.some_bytes(40), b"\xff" * 33])
        if operation == CHECK_ORDER:
            second, primes = self.order(known, by_part["scalar"], by_part["order"])
        if operation == SCAN:
            total = self.running_total(by_part["total"])
            if total is None or "8p" in by_part["pole"] and by_part["first"]:
                return None
            first = scan_record(total[8] ^ 1 << dice.below(32) if "20" in by_part["pole"] else total[8], first)
            first = first[: dice.below(4)] if "8p" in by_part["pole"] else first
        output = 0
        if operation in WITH_OUTPUT:
            # one that would fit or, mostly, one that wouldn't: the earlier fault wins over that too
            fits = {REWRITE_CURVE: 199, SPLIT: 50, WRITE_POLE_FILE: 300}.get(operation, 49)
            output = 0 if by_part.get("output") else dice.pick([fits, 2, 4, 8])
            if by_part.get("output") and len(faults) == 1:
                # the only fault: one byte short of the need, or shorter
                good = Frame(operation, curve, first, second, pole=pole)
                output = dice.pick([need_of(good) - 1, dice.below(need_of(good)), 0])
        return Frame(operation, curve, first, second, output, total, primes, pole), places.get(faults[0][0], 0)

    def batch(self, by_part, places):
        """Good records, the first fault, good records, the second fault; 8 can stand only at the end. None where they can't go together."""
        if "8b" in by_part["first"] and by_part["second"]:
            return None
        batch = []
        for part in ("first", "second"):
            batch += [r.write_divisor(self.pool.anything()) for _ in range(self.dice.below(4))]
            if by_part[part]:
                batch.append(self.divisor(by_part[part], in_batch=True))
                places[part] = len(batch)
                if batch[-1] is None:
                    return None
                if "8b" in by_part[part]:
                    break
        return batch

    def running_total(self, faults):
        dice, curve = self.dice, self.pool.curve
        a = self.pool.heavy()
        count = 4096 if "14" in faults else dice.pick([0, 7, 4095])
        total = list(r.flat_total(a, count, dice.pole()))
        if "15" in faults:
            w = r.weight(a)
            kinds = ["weight", "number", "valid"] + (["unused"] if w < 3 else []) + ([] if "14" in faults else ["count"])
            kind = dice.pick(kinds)
            if kind == "weight":
                total[0] = dice.pick([curve.g + 1, 4, 255, 256 + w, 2**32 + w, 2**63, 2**64 - 1])
            elif kind == "number":
                k = dice.pick([1, 4]) + dice.below(w)
                total[k] = dice.pick([total[k] + curve.p, curve.p, 2**64 - 1])
            elif kind == "unused":
                k = dice.pick([1, 4]) + w + dice.below(3 - w)
                total[k] = dice.pick([1, curve.p - 1, curve.p, 2**64 - 1])
            elif kind == "count":
                total[7] = dice.pick([4097, 5000, 65536, 2**32, 2**63, 2**64 - 1])
            else:
                u, v = total[1 : 1 + w], total[4 : 4 + w]
                wrong = [c for c in range(min(curve.p, 50)) if not r.divides_f_less_v_squared(
                    curve, tuple(u) + (1,), r.polynomial([c] + v[1:], curve.p))]  # fmt: skip
                if not wrong:
                    return None
                total[4] = dice.pick(wrong)
        return tuple(total)


class FileBase(Base):
    """The same of reading a pole file. 23 stands for a file that is short (s), its count (c), a record cut short or missing (8b here, as in a batch)
    and bytes left over (e)."""

    def __init__(self, dice, operation, pool, version):
        self.dice, self.operation, self.pool = dice, operation, pool
        self.stages = [("head", "23s"), ("head", "21"), ("head", "22")] + [("curve", fault) for fault in CURVE_FAULTS[version]] + [("count", "23c")]
        self.stages += [(part, fault) for part in ("first", "second") for fault in ("9", "8b", "10", "11")] + [("end", "23e"), ("output", "13")]

    def frame(self, faults):
        dice, places = self.dice, {}
        by_part = {part: [f for where, f in faults if where == part] for part, _ in self.stages}
        curve = self.curve(by_part["curve"])
        batch = self.batch(by_part, places)
        cut = {"8b"} & {*by_part["first"], *by_part["second"]}
        behind_cut = {"1a", "1k", "1b"} & set(by_part["curve"]) and [f for f in faults if f[0] in ("count", "first", "second", "end")]
        if curve is None or batch is None or behind_cut or cut and by_part["end"]:
            return None
        mark = dice.pick([b"HJC", b"HJQ", b"hjp", b"\0\0\0", b"IJP"]) if "21" in by_part["head"] else b"HJP"
        version = dice.pick([0, 2, 3, 256, 257, 65535]) if "22" in by_part["head"] else 1
        count = dice.pick([4097, 5000, 65535]) if by_part["count"] else len(batch)
        if cut and dice.below(2) and len(faults) == 1:
            batch = batch[:-1]  # not there at all
        file = pole_file(dice.pole(), curve, batch, mark, version, count)
        if {"1a", "1k", "1b"} & set(by_part["curve"]):
            file = file[: 9 + len(curve)]
        elif by_part["count"] and dice.below(2) and not [f for f in faults if f[0] in ("first", "second", "end")]:
            file = file[: 9 + len(curve) + dice.below(2)]
        elif by_part["end"]:
            file += dice.pick([b"\0", b"\xff", r.write_divisor(self.pool.heavy()), bytes(17)])
        if "23s" in by_part["head"]:
            if {part for part, _ in faults} - {"head", "output"}:
                return None
            least = 5 if "22" in by_part["head"] else 3 if "21" in by_part["head"] else 0
            file = file[: least + dice.below(9 - least)]
        output = 0 if by_part["output"] else dice.pick([300, 2, 4, 8])
        if by_part["output"] and len(faults) == 1:
            need = need_of(Frame(READ_POLE_FILE, b"", file))
            output = dice.pick([need - 1, dice.below(need), 0])
        return Frame(READ_POLE_FILE, b"", file, b"", output), places.get(faults[0][0], 0)

    def curve(self, faults):
        """In a file a wrong length can only be a cut."""
        record = faulty_curve(self.dice, self.pool.curve, [fault for fault in faults if fault != "1b"]) if faults else self.pool.record
        return record[: -1 - self.dice.below(8)] if record and "1b" in faults else record


def base_of(dice, operation, pool, version):
    return (FileBase if operation == READ_POLE_FILE else Base)(dice, operation, pool, version)


def is_asked_of_file(version, stages, faults):
    """In reading a pole file: every stage with the next; the head's with the first of the curve, the curve's with the first record's weight, and all
    with the count and the output; of the records all pairs. In version 2 what is its own."""
    count = stages.index(("count", "23c"))
    at = [stages.index(fault) for fault in faults]
    own = faults[0] in [("curve", fault) for fault in ("1k", "18k", "18")]
    if version == 2 and not own:
        return len(at) == 2 and at[1] == at[0] + 1 and at[0] < count <= at[1]
    if len(at) == 1 or at[0] > count:
        return True
    return at[1] in (at[0] + 1, count, len(stages) - 1) or at[1] == 3 > at[0] or at[1] == count + 1 and at[0] > 2


def is_asked(operation, version, stages, faults):
    """All stages and pairs of them in the two calls of a curve alone. In the others those of a curve that stand next to each other, since they
    read it by the same function; and in version 2 what is its own, with the first and the last of the other stages. An order's check has a
    curve's stages with these two in both versions."""
    if operation in (CHECK_CURVE, REWRITE_CURVE):
        return True
    if operation == READ_POLE_FILE:
        return is_asked_of_file(version, stages, faults)
    curve_stages = len(CURVE_FAULTS[version])
    at = [stages.index(fault) for fault in faults]
    if len(at) == 2 and at[1] < curve_stages:
        return at[1] == at[0] + 1
    ends = (curve_stages, len(stages) - 1)
    if version == 1:
        return operation != CHECK_ORDER or len(at) == 1 or at[0] >= curve_stages or at[1] in ends
    own = faults[0][1] in ("1k", "18k", "18") and faults[0][0] == "curve"
    return own and (len(at) == 1 or at[1] in ends) or at == [curve_stages - 1, curve_stages]


def put_refusals(dice, collection, operations, pools_by_version):
    """Every stage of these calls by itself, and every pair of stages that is asked for and can go together: the earlier must win."""
    for operation, (version, pools) in itertools.product(operations, pools_by_version.items()):
        stages = base_of(dice, operation, pools[0], version).stages
        for faults in itertools.chain(((stage,) for stage in stages), itertools.combinations(stages, 2)):
            for _ in range(12 if is_asked(operation, version, stages, faults) else 0):
                made = base_of(dice, operation, dice.pick(pools), version).frame(faults)
                if made is None:
                    continue
                frame, place = made
                if collection.put(frame):
                    fields = answer(frame)[0]
                    number = number_of(faults[0][1])
                    if operation == READ_POLE_FILE and number == 8:
                        number = 23
                    wanted = (number, place if 8 <= number <= 11 else 0)
                    if fields[:2] != wanted:
                        raise AssertionError("%s %s: %s" % (NAMES[operation], faults, fields))
                    collection.orders[(NAMES[operation], version) + tuple("%s %s" % f for f in faults)] += 1
                    break


def put_every_curve_fault(dice, collection):
    """All the wrong marks, versions, genera, primes and lengths by themselves."""
    for g, p in ((3, 11), (2, 2147483647)):
        f = [1] + [0] * (2 * g)
        good = curve_record(g, p, f)
        wrong = [good[:n] for n in range(7)] + [good[:n] for n in (13, 14, len(good) - 16, len(good) - 1)]
        wrong += [good + bytes(n) for n in (1, 8, 16, 17)]
        wrong += [curve_record(g, p, f, mark=mark) for mark in WRONG_MARKS]
        wrong += [curve_record(g, p, f, version=version) for version in WRONG_VERSIONS]
        wrong += [curve_record(genus, p, f) for genus in WRONG_GENERA] + [curve_record(5 - g, p, f)]
        wrong += [curve_record(g, n, f) for n in WRONG_PRIMES]
        wrong += [curve_record(g, n, [n] * len(f)) for n in (9, 2147483648, 2**64 - 1)]
        for i in range(len(f)):
            for c in (p, p - 1, p + 1, 2**32, 2**64 - 1):
                wrong.append(curve_record(g, p, f[:i] + [c] + f[i + 1 :]))
        for record in wrong:
            collection.put(Frame(CHECK_CURVE, record))
        for record in wrong[:: 5]:
            collection.put(Frame(REWRITE_CURVE, record, b"", b"", MOST_OUTPUT))
        # six bytes are looked at, five are not
        for mark, version, genus in itertools.product((b"HJC", b"HJX"), (1, 3), (g, 4)):
            for length in (5, 6, 7, len(good) - 1):
                collection.put(Frame(CHECK_CURVE, curve_record(genus, p, f, mark, version)[:length]))
    # repeated factors: (x - a)²·rest, a derivative of 0, a quadratic factor twice
    for g, p in itertools.product(GENERA, PRIMES):
        for _ in range(3):
            factor = tuple(dice.below(p) for _ in range(1 + dice.below(g))) + (1,)
            square = r.times(factor, factor, p)
            rest = tuple(dice.below(p) for _ in range(2 * g + 2 - len(square))) + (1,)
            f = r.times(square, rest, p)
            record = curve_record(g, p, f[:-1])
            collection.put(Frame(CHECK_CURVE, record))
            collection.put(Frame(REWRITE_CURVE, record, b"", b"", dice.pick([0, 9, 54, 70])))
        if p == 2 * g + 1 or (g == 3 and p == 7):
            collection.put(Frame(CHECK_CURVE, curve_record(g, p, [p - 1] + [0] * (2 * g))))


def put_witnesses(dice, collection):
    """Good witnesses, and each made wrong in every way: the base, each prime left out, and all that `faulty_witness` has."""
    for g, p in itertools.product(GENERA, (3, 5, 7, 11, 19, 2311, 65537, *LARGE)):
        a, primes = LARGE.get(p) or witnesses.witness_of(p)
        f = [1, 2] + [0] * (2 * g - 1)
        tried = [(p, (a, primes))] + [(p, (base, primes)) for base in (0, 1, a * a % p, p - 1, p, p + a)]
        if g == 2:
            tried += [(p, (pow(a, q, p), primes)) for q in primes]
        elif len(primes) > 1:
            tried += [(p, (a, primes[:i] + primes[i + 1 :])) for i in range(len(primes))]
        tried += [faulty_witness(dice, p, a, primes) for _ in range(4)]
        for n, witness in tried:
            collection.put(Frame(CHECK_CURVE, curve_record(g, n, f, witness=witness)))
        good = curve_record(g, p, f, witness=(a, primes))
        for output in (len(good), len(good) - 1, MOST_OUTPUT):
            collection.put(Frame(REWRITE_CURVE, good, b"", b"", output))


    for g, (p, witness) in itertools.product(GENERA, BY_ONE_FAULT):
        collection.put(Frame(CHECK_CURVE, curve_record(g, p, [1] + [0] * (2 * g), witness=witness)))


# Faults that a witness seldom has alone: a prime of 2^31 or more that would do, a composite number that would, a prime that doesn't divide
# p - 1, a^(p-1)
BY_ONE_FAULT = (
    (LISTS_MORE, BY_MORE), (LISTS_MORE, (2**7, BY_MORE[1])), (SAFE, BY_SAFE), (7, (3, (6,))), (5, (2, (4,))), (19, (2, (2, 9))),
    (36847, (3, (2, 3, 2047))), (7, (3, (2, 3, 5))), (15, (2, (2, 7))), (21, (2, (2, 5))), (33, (2, (2,))), (2147483649, (2, (2,))),
)  # fmt: skip


def put_composites(collection):
    """Every odd composite number below 3,000 for p, with the primes of one less and the base that gets furthest."""
    for n in filter(witnesses.is_composite, range(3, 3000, 2)):
        collection.put(Frame(CHECK_CURVE, curve_record(2, n, [1, 0, 0, 0, 0], witness=witnesses.furthest(n))))


def witnessed_pool(dice, g, p, roots=1, top=True):
    """A pool on a curve of version 2."""
    while True:
        curve, chosen = drawn_curve(dice, g, p, roots, top)
        pool = Pool(dice, witnessed_curve(curve), chosen)
        if pool.has_divisors:
            return pool


def put_on_witnessed(dice, collection, pools, recipes):
    """Every call on curves of version 2: sums of so many recipes, doubles, opposites, multiples, batches, repeats, scans."""
    for pool in pools:
        for recipe in dice.turned(RECIPES)[:recipes]:
            pair = recipe(pool)
            if pair is not None:
                put_sum(dice, collection, pool.curve, *pair)
        a, b = pool.heavy(), pool.anything()
        put_sum(dice, collection, pool.curve, a, None)
        one, other = map(r.write_divisor, (a, b))
        put_with_outputs(dice, collection, Frame(OPPOSITE, pool.record, one), [enough_output])
        for scalar in (dice.some_bytes(2), dice.pick([dice.some_bytes(32), b"\xff" * 32])):
            put_with_outputs(dice, collection, Frame(MULTIPLY, pool.record, one, scalar), [enough_output])
        batch = b"".join(map(r.write_divisor, drawn_batch(dice, pool, 5)))
        put_with_outputs(dice, collection, Frame(TOTAL_BATCH, pool.record, batch), [enough_output])
        collection.put(Frame(FIRST_REPEAT, pool.record, batch + r.write_divisor(pool.opposite(a)) + one))
        collection.put(Frame(CHECK_DIVISOR, pool.record, one))
        put_with_outputs(dice, collection, Frame(REWRITE_DIVISOR, pool.record, other), [enough_output])
        collection.put(scan_of(pool, one, r.fresh_total(dice.pole())))
        collection.put(scan_of(pool, other, r.flat_total(a, dice.pick([1, 4095]), dice.pole())))


def order_and_primes(curve, a):
    n = orders.order_of(curve, a)
    multiple, primes = orders.MULTIPLES.get((curve.g, curve.p), (n, None))
    return n, orders.dividing(n, primes) if primes and multiple % n == 0 else witnesses.primes_of(n)


def put_order(dice, collection, curve, a, wrong):
    """The order of a divisor, as short as can be and with leading zeros, and so many that are wrong."""
    n, primes = order_and_primes(curve, a)
    record, divisor, order, listed = r.write_curve(curve), r.write_divisor(a), orders.in_bytes(n), in_4_bytes(primes)
    for spelled in (order, order.rjust(dice.pick([2, 8, 32]), b"\0")):
        collection.put(Frame(CHECK_ORDER, record, divisor, spelled, primes=listed))
    for m, other in dice.turned(orders.wrong(dice, n, primes))[:wrong]:
        collection.put(Frame(CHECK_ORDER, record, divisor, orders.in_bytes(m), primes=other))


def put_orders(dice, collection, pools):
    """Right and wrong orders: what breaks one, by hand; divisors of small curves, whose orders are counted out."""
    for _, curve, a, order, primes, _ in ORDERS + BROKEN_ORDERS:
        collection.put(Frame(CHECK_ORDER, curve, a, order, primes=primes))
    for pool in pools:
        for a in (r.NEUTRAL, pool.heavy(), pool.heavy()):
            put_order(dice, collection, pool.curve, a, 1 if a == r.NEUTRAL else 4)


def put_known_orders(dice, collection):
    """x^(2g+1) + 1 at large primes: (x, 1) has order 2g + 1, (x + 1, 0) order 2, their sum both; where a multiple of every order is known, the
    largest of a few that are drawn, or an order that is a prime about 2^31."""
    for g in GENERA:
        for p, witness in ((2147483647, None), (LARGEST, BY_LARGEST)):
            curve = r.read_curve(power_and_1(g, p, witness))
            put_order(dice, collection, curve, r.sum_of(curve, r.Divisor((0, 1), (1,)), r.Divisor((1, 1), r.ZERO)), 4)
        for p, witness in ((65537, None), (MANY, BY_MANY), (LONG_2, BY_LONG_2) if g == 2 else (LONG_3, BY_LONG_3)):
            curve = r.read_curve(power_and_1(g, p, witness))
            pool = Pool(dice, curve, [])
            put_order(dice, collection, curve, max((pool.heavy() for _ in range(3)), key=lambda a: orders.order_of(curve, a)), 4)
        for p, witness in ((LARGEST_LISTED, BY_LARGEST_LISTED), (OVER, BY_OVER)):
            curve = r.read_curve(power_and_1(g, p, witness))
            multiple, (*_, q) = orders.MULTIPLES[g, p]
            a = r.multiple_of(curve, Pool(dice, curve, []).heavy(), multiple // q)[0]
            put_order(dice, collection, curve, a, 1)


def witnessed_curve(curve):
    """The same in version 2."""
    return curve._replace(witness=r.Witness(*(LARGE.get(curve.p) or witnesses.witness_of(curve.p))))


def put_split(dice, collection, curve, a):
    """A split with room for it, sometimes also one byte short; where there is none, with an output and without."""
    frame = Frame(SPLIT, r.write_curve(curve), r.write_divisor(a))
    need = need_of(frame)
    if need == 0:
        collection.put(frame._replace(output=dice.pick([0, 0, 50, 50, 34])))
        return
    collection.put(frame._replace(output=enough_output(dice, need)))
    if dice.below(8) == 0:
        collection.put(frame._replace(output=dice.pick([need - 1, need - 1, need - 1, 17, 0])))


SPLIT_PRIMES = (3, 5, 7, 11, 13)  # with all divisors of a curve, or many of them
MOST_OF_A_CURVE = 400


def put_splits(dice, collection):
    """Every divisor of weight 2 or 3 on a curve of each genus and small prime, in both versions by turns, in genus 3 at p = 11 and 13 some of them;
    then each shape of u in both versions, and weights that can't be split."""
    for n, (g, p) in enumerate(itertools.product(GENERA, SPLIT_PRIMES)):
        heavy = None
        while heavy is None or p <= 7 and len(heavy) > MOST_OF_A_CURVE:
            curve = drawn_curve(dice, g, p, dice.below(3), bool(dice.below(2)))[0]
            heavy = [a for a in splits.all_divisors(curve) if r.weight(a) >= 2]
        curve = witnessed_curve(curve) if n % 2 else curve
        for a in heavy if len(heavy) <= MOST_OF_A_CURVE else dice.turned(heavy)[: MOST_OF_A_CURVE // 4]:
            put_split(dice, collection, curve, a)
    for g, p in itertools.product(GENERA, SPLIT_PRIMES + (1009, 65537, *LARGE)):
        for n, shape in enumerate(splits.shapes(g, p)):
            for version in (1, 2) if p <= 65537 else (2, 2) if p in (TWOS, LARGEST) else (2,):
                if p > 13 or (n + p // 2) % 2 == version - 1:
                    curve, a = splits.drawn(dice, g, p, shape)
                    put_split(dice, collection, witnessed_curve(curve) if version == 2 else curve, a)
        curve, a = splits.drawn(dice, g, p, (2, splits.TWO, False))
        for whole in (curve, witnessed_curve(curve)) if p <= 11 else (witnessed_curve(curve),) if p > 65537 else (curve,):
            for light, output in ((r.NEUTRAL, dice.pick([0, 34])), (r.parts_of(curve, a)[0], dice.pick([0, 50]))):
                collection.put(Frame(SPLIT, r.write_curve(whole), r.write_divisor(light), b"", output))


def put_next(dice, collection, curve, a):
    """A step with room for it, sometimes also one byte short; from the last one, with an output and without."""
    frame = Frame(NEXT_DIVISOR, r.write_curve(curve), r.write_divisor(a))
    need = need_of(frame)
    outputs = [enough_output(dice, need)] if need else [0, 49]
    if need and dice.below(6) == 0:
        outputs.append(dice.pick([need - 1, need - 1, dice.below(need), 0]))
    for output in outputs:
        collection.put(frame._replace(output=output))


STEPS_OF_A_WEIGHT = 3  # where not all are taken: the first and the last, and so many others


def put_walks(dice, collection):
    """Whole walks at p = 3 and 5, in both versions; at p = 7, 11 and 13 of each weight the first step, the last and some others. Then curves that are
    too large."""
    for g, p in itertools.product(GENERA, SPLIT_PRIMES):
        for version in (1, 2):
            curve = drawn_curve(dice, g, p, dice.below(3), bool(dice.below(2)))[0]
            curve = witnessed_curve(curve) if version == 2 else curve
            divisors = splits.all_divisors(curve)
            for w in range(g + 1):
                taken = [a for a in divisors if r.weight(a) == w]
                if p > 5 and len(taken) > STEPS_OF_A_WEIGHT + 2:
                    taken = taken[:1] + dice.turned(taken[1:-1])[:STEPS_OF_A_WEIGHT] + taken[-1:]
                for a in taken:
                    put_next(dice, collection, curve, a)
    for g, p in itertools.product(GENERA, (17, 19, 1009, 65537, *LARGE)):
        curve, a = splits.drawn(dice, g, p, (2, splits.TWO, False))
        curve = witnessed_curve(curve) if p > 65537 or dice.below(2) else curve
        wrong = dice.pick([b"", b"\4", b"\1" + bytes(15), divisor_record([p], [0])])
        for record, output in ((NEUTRAL_RECORD, 17), (r.write_divisor(a), dice.pick([0, 49])), (wrong, dice.pick([0, 49]))):
            collection.put(Frame(NEXT_DIVISOR, r.write_curve(curve), record, b"", output))


def put_pole_file(dice, collection, curve, divisors):
    """A pole file written and read, with room and mostly also without."""
    record, records, pole = r.write_curve(curve), list(map(r.write_divisor, divisors)), dice.pole()
    write = Frame(WRITE_POLE_FILE, record, b"".join(records), pole=pole)
    read = Frame(READ_POLE_FILE, b"", pole_file(pole, record, records))
    for frame in (write, read):
        need = need_of(frame)
        for output in (dice.pick([need, need, need + 1, need + 5]), dice.pick([need - 1, need - 1, need - 9, dice.below(need), 0])):
            collection.put(frame._replace(output=output))


def put_pole_files(dice, collection, pools, to_cut):
    """Files of some records in both versions; some cut at every byte, grown, and with wrong counts, marks and versions; files of 4,096 records, and
    of one more."""
    for n, pool in enumerate(pools):
        put_pole_file(dice, collection, pool.curve, drawn_batch(dice, pool, n % 5))
    for pool in to_cut:
        records = [r.write_divisor(a) for a in (pool.sum(*pool.signed_points(1)), r.NEUTRAL, pool.heavy())]
        pole = dice.pole()
        file = pole_file(pole, pool.record, records)
        files = [file[:n] for n in range(len(file))] + [file + more for more in (b"\0", b"\xff", records[0], bytes(40))]
        files += [pole_file(pole, pool.record, records, count=count) for count in (0, 1, 2, 4, 5, 256 + 3, 4096, 4097, 32768 + 3, 65535)]
        files += [pole_file(pole, pool.record, records, mark=mark) for mark in (b"HJC", b"IJP", b"HKP", b"hjp", b"PJH", b"\0\0\0")]
        files += [pole_file(pole, pool.record, records, version=version) for version in (0, 2, 3, 256, 257, 65535)]
        collection.put(Frame(READ_POLE_FILE, b"", file, b"", 300))
        for other in files:
            collection.put(Frame(READ_POLE_FILE, b"", other, b"", 300 if dice.below(32) == 0 else dice.below(8)))
    pool = to_cut[0]
    full = [NEUTRAL_RECORD] * 4095 + [r.write_divisor(pool.heavy())]
    wrong = [NEUTRAL_RECORD] * 4095 + [b"\xff"]
    for records, output in ((full, 300), (full + [b"\xff"], 0), (wrong, 0)):
        collection.put(Frame(WRITE_POLE_FILE, pool.record, b"".join(records), b"", output, pole=dice.pole()))
        collection.put(Frame(READ_POLE_FILE, b"", pole_file(dice.pole(), pool.record, records), b"", output))
    collection.put(Frame(READ_POLE_FILE, b"", pole_file(dice.pole(), pool.record, full) + NEUTRAL_RECORD, b"", 300))


def put_every_divisor_fault(dice, collection, pools):
    """Every coefficient by itself, every length, every weight byte; scalars over 32 bytes."""
    for pool in pools:
        g, p = pool.curve.g, pool.curve.p
        by_weight = {}
        for _ in range(200):
            a = pool.anything()
            by_weight.setdefault(r.weight(a), a)
        for w, a in sorted(by_weight.items()):
            good = r.write_divisor(a)
            numbers = list(a.u[:w]) + list(a.v) + [0] * (w - len(a.v))
            wrong = []
            for i in range(2 * w):
                for c in (p, numbers[i] + p, p - 1, 2**32, 2**64 - 1):
                    changed = numbers[:i] + [c] + numbers[i + 1 :]
                    wrong.append(divisor_record(changed[:w], changed[w:]))
                if numbers[i] + 1 < p:
                    changed = numbers[:i] + [numbers[i] + 1] + numbers[i + 1 :]
                    wrong.append(divisor_record(changed[:w], changed[w:]))
            wrong += [good[:n] for n in (0, 1, 2, 16, 17, 32, 33) if n < len(good)] + [good[:-1]]
            wrong += [good + bytes(n) for n in (1, 16, 17)] + [bytes([n]) + good[1:] for n in (0, 1, 2, 3, 4, 255)]
            other = r.write_divisor(pool.anything())
            for record in wrong:
                collection.put(Frame(CHECK_DIVISOR, pool.record, record))
                if dice.below(5) == 0:
                    output = dice.pick([0, 33, 49, 64])
                    operation = dice.pick([REWRITE_DIVISOR, DOUBLE, OPPOSITE, ADD, ADD, MULTIPLY, SCAN])
                    if operation == ADD:
                        pair = (record, other) if dice.below(3) == 0 else (other, record)
                        collection.put(Frame(ADD, pool.record, *pair, output))
                    elif operation == MULTIPLY:
                        collection.put(Frame(MULTIPLY, pool.record, record, dice.some_bytes(dice.pick([1, 33])), output))
                    elif operation == SCAN:
                        collection.put(scan_of(pool, record, r.flat_total(pool.anything(), dice.below(4096), dice.pole())))
                    else:
                        collection.put(Frame(operation, pool.record, record, b"", output))
            for scalar in (b"\0" * 32, b"\0" * 33, b"\0" * 32 + b"\1", dice.some_bytes(34), dice.some_bytes(64)):
                collection.put(Frame(MULTIPLY, pool.record, good, scalar, dice.pick([0, 49])))


def put_every_total_fault(dice, collection, pools):
    """Every number of a running total by itself, with a count below, at and above 4,096, before a good record and
    before a wrong one: 15 wins over 14, and both over the record."""
    for pool in pools:
        g, p = pool.curve.g, pool.curve.p
        by_weight = {0: r.NEUTRAL}
        for _ in range(200):
            a = pool.anything()
            by_weight.setdefault(r.weight(a), a)
        for w, a in sorted(by_weight.items()):
            good = r.flat_total(a, 0, 0)[:7]
            totals = [good] + [(n,) + good[1:] for n in (0, 1, 2, 3, 4, 256 + w, 2**32 + w, 2**64 - 1)]
            for i in range(1, 7):
                for c in (1, p, good[i] + p, 2**64 - 1):
                    totals.append(good[:i] + (c,) + good[i + 1 :])
            for total in totals:
                count = dice.pick([0, 1, 4095, 4096, 4096, 4097, 2**32, 2**64 - 1])
                record = dice.pick([r.write_divisor(pool.anything())] * 3 + [b"", b"\xff", divisor_record([p], [0])])
                collection.put(scan_of(pool, record, total + (count, dice.pole())))


def put_long_batches(dice, collection, pools_of):
    """4,096 and 4,097 records, kept small by neutral ones; four hundred different points."""
    pool = pools_of[2, 2147483647][0]
    points = []
    x = 1
    while len(points) < 400:
        x += 1 + dice.below(1000)
        y = square_root(r.value_at(pool.curve.f, x, pool.curve.p), pool.curve.p)
        if y:
            points.append(divisor_record([pool.curve.p - x], [y if dice.below(2) else pool.curve.p - y]))
    collection.put(Frame(FIRST_REPEAT, pool.record, b"".join(points)))
    collection.put(Frame(FIRST_REPEAT, pool.record, b"".join(points[:250] + points[199:200])))
    collection.put(Frame(TOTAL_BATCH, pool.record, b"".join(points[:200]), b"", 33))
    pool = pools_of[3, 11][0]
    heavy = [r.write_divisor(pool.anything()) for _ in range(10)]
    full = dice.turned(heavy + [NEUTRAL_RECORD] * 4086)
    bad = divisor_record([pool.curve.p], [0])
    for operation, batch, output in (
        (TOTAL_BATCH, full, 49),
        (FIRST_REPEAT, full, 0),
        (TOTAL_BATCH, full + [b"\xff"], 0),
        (FIRST_REPEAT, full + [NEUTRAL_RECORD], 0),
        (TOTAL_BATCH, full[:-1] + [bad, NEUTRAL_RECORD], 0),
        (FIRST_REPEAT, full[:-1] + [b"\1"], 0),
    ):
        collection.put(Frame(operation, pool.record, b"".join(batch), b"", output))
    curve = faulty_curve(dice, pool.curve, ["7"])
    collection.put(Frame(TOTAL_BATCH, curve, NEUTRAL_RECORD * 4097, b"", 49))


def own_opposites(pool, w):
    """Divisors of weight w with v = 0."""
    if pool.whole:
        return [a for a in pool.whole if len(a.u) == w + 1 and a == pool.opposite(a)]
    return [pool.sum(*flats) for flats in itertools.combinations(pool.flats, w)]


def put_repeats(dice, collection, pools_of):
    """For each weight a repeat by sign with an equal pair behind it, the other way round, and divisors that are their own opposites."""
    for g, p in itertools.product(GENERA, (5, 7, 11, 1009, 2147483647)):
        pools = pools_of[g, p]
        for w in range(1, g + 1):
            pool = pools[w % len(pools)]
            own = own_opposites(pool, w)
            own = [dice.pick(own)] if own else []
            drawn = [pool.sum(*pool.signed_points(w)) for _ in range(12)] + [pool.heavy() for _ in range(24)]
            turned = [a for a in drawn if len(a.u) == w + 1 and a != pool.opposite(a)][:1]
            batches = [own + own] if own else []
            for a in turned:
                batches += [own + [a, pool.opposite(a), a], [a, a, pool.opposite(a)]]
            for batch in batches:
                collection.put(Frame(FIRST_REPEAT, pool.record, b"".join(map(r.write_divisor, batch))))


def made(seed):
    dice, collection = Dice(seed), Collection()
    pools_of = {}
    for g, p in itertools.product(GENERA, PRIMES):
        pools = pools_of[g, p] = pools_for(dice, g, p)
        put_sums(dice, collection, g, p, pools, put_classes(dice, collection, g, p))
        put_doubles_and_opposites(dice, collection, pools)
        put_multiples(dice, collection, pools)
        put_batches(dice, collection, pools)
        put_scans(dice, collection, pools)
        put_checks(dice, collection, pools)
    faulty = [pools_of[g, p][k] for g in GENERA for p in (7, 11, 65537, 2147483647) for k in (0, 1)]
    witnessed = {(g, p): witnessed_pool(dice, g, p) for g in GENERA for p in (3, 5, 7, 11, *LARGE)}
    put_refusals(dice, collection, range(CHECK_CURVE, SCAN + 1), {1: faulty, 2: [witnessed[g, p] for g in GENERA for p in (7, 11)]})
    put_every_curve_fault(dice, collection)
    put_witnesses(dice, collection)
    put_composites(collection)
    for (g, p), pool in witnessed.items():
        if p == LARGEST:
            more = [witnessed_pool(dice, g, p, *shape) for shape in ((3, False), (2, True))]
            put_on_witnessed(dice, collection, [pool] + more, len(RECIPES))
        else:
            put_on_witnessed(dice, collection, [pool], 3)
    put_every_divisor_fault(dice, collection, [pools_of[key][1] for key in ((2, 7), (3, 2147483647))])
    put_every_total_fault(dice, collection, [pools_of[key][1] for key in ((3, 11), (2, 2147483647))])
    put_long_batches(dice, collection, pools_of)
    put_repeats(dice, collection, pools_of)
    put_keys(dice, collection, [pools_of[key][1] for key in ((2, 5), (3, 2147483647))])
    put_small_orders(dice, collection, pools_of)
    small = ((2, 5), (3, 5), (2, 7))  # whose orders are counted out
    with_orders = {1: [pools_of[key][k] for key in small for k in (0, 3)], 2: [witnessed[key] for key in small]}
    put_refusals(dice, collection, [CHECK_ORDER], with_orders)
    put_known_orders(dice, collection)
    put_orders(dice, collection, with_orders[1][::2] + with_orders[2] + [pools_of[3, 3][1], witnessed[3, 3]])
    put_refusals(dice, collection, [SPLIT], {1: faulty, 2: [witnessed[g, p] for g in GENERA for p in (7, 11)]})
    put_splits(dice, collection)
    with_census = {1: [pools_of[key][k] for key in ((2, 7), (2, 11), (3, 5), (3, 7)) for k in (0, 1)], 2: [witnessed[g, p] for g in GENERA for p in (5, 7)]}
    without = {1: faulty[4:8], 2: [witnessed[g, LARGEST] for g in GENERA]}  # p is too large
    put_refusals(dice, collection, [NEXT_DIVISOR], {version: with_census[version] + without[version] for version in (1, 2)})
    put_walks(dice, collection)
    put_mixed_scans(dice, collection, [pools_of[g, p][k] for g in GENERA for p, k in ((7, 1), (2147483647, 2))] + [witnessed[g, LARGEST] for g in GENERA])
    put_refusals(dice, collection, [WRITE_POLE_FILE, READ_POLE_FILE], {1: faulty, 2: [witnessed[g, p] for g in GENERA for p in (7, 11)]})
    several = [pools_of[g, p][k] for g in GENERA for p in PRIMES[::2] for k in (0, 3)] + list(witnessed.values())
    put_pole_files(dice, collection, several, [pools_of[2, 7][1], pools_of[3, 2147483647][0], witnessed[2, 7], witnessed[3, 11]])
    return collection


# ---------------------------------------------------------------------------------------------------------
# The census: from the frames alone, as they are read back
# ---------------------------------------------------------------------------------------------------------


REPEATS = ("equal", "by sign", "its own opposite")


def kinds_of_repeat(curve, divisors, i, j):
    """What the first repeat of a batch is, and whether an equal pair stands behind one by sign."""
    a, b = divisors[i - 1], divisors[j - 1]
    kind = REPEATS[1] if a != b else REPEATS[2] if a == r.opposite_of(curve, a) else REPEATS[0]
    yield curve.g, "%s, weight %d" % (kind, len(a.u) - 1)
    if kind == REPEATS[1] and len(set(divisors)) < len(divisors):
        yield curve.g, "a repeat by sign, an equal pair behind it"


def curve_of(frame):
    """The curve record, which a pole file has in it."""
    return r.front_curve(frame.first[9:]) if frame.operation == READ_POLE_FILE else frame.curve


class Census:
    def __init__(self, frames, orders):
        self.frames, self.orders = frames, orders
        self.kinds = {(g, p): Counter() for g in GENERA for p in PRIMES}
        self.done = Counter()
        self.numbers = Counter()
        self.outputs = Counter()
        self.batches = Counter()
        self.repeats = Counter()
        self.done_per_curve = Counter()
        self.longest = Counter()
        self.shapes = Counter()
        self.classes = Counter()
        self.multiples = Counter()
        self.witnessed = Counter()
        self.composites = set()
        self.key_orders = Counter()
        self.splits = Counter()
        self.split_on = defaultdict(set)  # by curve, the divisors of weight 2 or 3
        self.steps = Counter()
        self.walked = defaultdict(dict)  # by curve, what follows a divisor, None after the last
        self.scanned = defaultdict(set)  # by curve and scan, the numbers that it's answered
        self.files = defaultdict(set)  # that are written, read, or refused to be read
        self.text = []
        for frame in frames:
            self.take(frame)

    def take(self, frame):
        answered = fields, out = answer(frame)
        self.text.append(text_of(frame, answered))
        number, operation = fields[0], frame.operation
        self.numbers[operation, number] += 1
        for name in ("curve", "first", "second", "primes"):
            self.longest[NAMES[operation], name] = max(self.longest[NAMES[operation], name], len(getattr(frame, name)))
        if operation in WITH_OUTPUT:
            if number == 13:
                self.outputs["below the need"] += 1
                self.outputs["below the need by one"] += need_of(frame) - 1 == frame.output
                self.outputs["empty"] += frame.output == 0
            elif number == 0:
                self.outputs["equal to the need" if frame.output == fields[2] else "above the need"] += 1
            else:
                self.outputs["kept whole on another refusal"] += 1
            kept = out[fields[2] :]
            if kept != bytes([GUARD]) * len(kept) or len(out) != frame.output:
                raise AssertionError("a guard byte is changed")
        if operation in (TOTAL_BATCH, FIRST_REPEAT):
            if number == 0:
                curve = r.read_curve(frame.curve)
                divisors = r.read_batch(curve, frame.first)
                size = len(divisors)
                self.batches["empty" if size == 0 else "of one" if size == 1 else "of 4,096" if size == 4096 else "longer"] += 1
                if operation == FIRST_REPEAT:
                    self.batches["a repeat" if fields[4] else "no repeat"] += 1
                    if fields[4]:
                        self.repeats.update(kinds_of_repeat(curve, divisors, *fields[3:5]))
            elif number == 8:
                self.batches["a cut last record"] += 1
            elif number == 14:
                self.batches["over 4,096"] += 1
        self.take_witness(frame, number)
        self.take_order(frame, number)
        self.take_split(frame, number)
        self.take_step(frame, fields, out)
        self.take_pole(frame, fields, out)
        if operation == MULTIPLY and number in (0, 19):
            self.multiples[r.read_curve(frame.curve).g, frame.second] += 1  # 0 as a scalar is 19
        if number != 0:
            return
        self.done[operation] += 1
        curve = r.read_curve(curve_of(frame))
        key = curve.g, curve.p
        self.done_per_curve[key, operation] += 1
        if operation == ADD and key in self.kinds:
            a, b = r.read_divisor(curve, frame.first, 1), r.read_divisor(curve, frame.second, 2)
            self.kinds[key].update(kinds_of_sum(curve, a, b))
            self.shapes[shape_of_sum(curve, a, b)] += 1
            self.classes[classes.class_of(curve, a, b)] += 1
        if operation == DOUBLE:
            a = r.read_divisor(curve, frame.first, 1)
            self.done_per_curve[key, "flat double"] += has_flat_point(curve, a)
            self.classes[classes.class_of(curve, a)] += 1
        if operation == MULTIPLY:
            a, digits = r.read_divisor(curve, frame.first, 1), r.signed_digits_of(int.from_bytes(frame.second, "big"))
            self.multiples["of 257 digits"] += len(digits) == 257
            self.multiples["of 256 digits"] += len(digits) == 256
            self.multiples["with a digit -1"] += -1 in digits
            for order in (2, 3):
                self.multiples["of a divisor of order %d" % order] += order_below_four(curve, a) == order

    def take_witness(self, frame, number):
        """What a curve record of version 2 has: its witness's faults where that is what is answered, the calls that are done."""
        curve = curve_of(frame)
        if curve[:5] != b"HJC\0\2" or number not in (0, 18):
            return
        g, p = curve[5], r.number_at(curve, 6)
        end = 14 + 8 * (2 * g + 1)
        k = curve[end + 8]
        if number == 0:
            self.witnessed[g, "done, " + NAMES[frame.operation]] += 1
            self.witnessed["p = %d" % p] += 1
            self.witnessed["k = %d" % k] += 1
        elif not 1 <= k <= 15:
            self.witnessed["k is %s" % (k if k in (0, 16) else "over 16")] += 1
        else:
            primes = tuple(r.number_at(curve, end + 9 + 8 * i) for i in range(k))
            faults = witnesses.faults_of(p, r.number_at(curve, end), primes)
            self.witnessed.update(faults)
            self.witnessed.update(fault + ", alone" for fault in faults if len(faults) == 1)
            if p < 3000 and witnesses.is_composite(p) and primes == witnesses.primes_of(p - 1):
                self.composites.add(p)

    def take_order(self, frame, number):
        """What an order and its list have, by the divisor's true order; an answer that doesn't fit it is an error."""
        if frame.operation != CHECK_ORDER or number not in (0, 27):
            return
        curve = r.read_curve(frame.curve)
        order = orders.order_of(curve, r.read_divisor(curve, frame.first, 1))
        faults = orders.faults_of(order, int.from_bytes(frame.second, "big"), frame.primes)
        if (number == 0) != (not faults):
            raise AssertionError("order %d: %r answers %d" % (order, frame, number))
        kind = curve.g, 1 if curve.witness is None else 2
        self.key_orders[kind + ("right" if number == 0 else "wrong",)] += 1
        self.key_orders.update(faults)
        self.key_orders.update(fault + ", alone" for fault in faults if len(faults) == 1)
        if number == 0:
            for what, holds in (
                ("n = 1", order == 1), ("with leading zeros", frame.second[:1] == b"\0"), ("of 32 bytes", len(frame.second) == 32),
                ("of over 100 bits", order >= 2**100), ("15 primes", len(frame.primes) == 60), ("2^31 - 1 listed", frame.primes[-4:] == b"\x7f\xff\xff\xff"),
            ):  # fmt: skip
                self.key_orders[what] += holds

    def take_split(self, frame, number):
        """What is split or has 26, by the shape of u; an answer that doesn't fit the shape is an error. And what room there is."""
        if frame.operation != SPLIT or number not in (0, 13, 26):
            return
        curve = r.read_curve(frame.curve)
        a = r.read_divisor(curve, frame.first, 1)
        shape = splits.shape_of(a.u, curve.p) if r.weight(a) >= 2 else (r.weight(a), splits.NONE, False)
        if (number == 26) != (shape[1] == splits.NONE):
            raise AssertionError("%s: %r answers %d" % (splits.words(shape), frame, number))
        if number == 13:
            self.splits["weight %d, a byte short" % shape[0]] += need_of(frame) - 1 == frame.output
            return
        if shape[0] >= 2:
            self.split_on[curve].add(a)
            self.splits[curve.g, curve.p, shape] += 1
        self.splits[curve.g, 1 if curve.witness is None else 2, shape] += 1
        if number == 0:
            self.splits["weight %d, just enough room" % shape[0]] += frame.output == 2 + 16 * shape[0]
        else:
            self.splits["26 without an output"] += frame.output == 0

    def curves_split_whole(self):
        """Genus and p of the small curves whose every divisor of weight 2 or 3 is split or has 26."""
        small = {curve: taken for curve, taken in self.split_on.items() if curve.p <= 13 and len(taken) > 2}
        return {(curve.g, curve.p) for curve, taken in small.items() if {a for a in splits.all_divisors(curve) if r.weight(a) >= 2} == taken}

    def take_step(self, frame, fields, out):
        """The weights before and after a step, or 24, by version; and by which p 25 is given."""
        number, _, length = fields[:3]
        if frame.operation != NEXT_DIVISOR or number not in (0, 13, 24, 25):
            return
        curve = r.read_curve(frame.curve)
        kind = curve.g, 1 if curve.witness is None else 2
        if number == 25:
            self.steps["25, p = %d" % curve.p] += 1
            self.steps["25 without an output"] += frame.output == 0
            return
        a = r.read_divisor(curve, frame.first, 1)
        if number == 13:
            self.steps["a byte short"] += need_of(frame) - 1 == frame.output
            return
        self.walked[curve][a] = after = None if number == 24 else r.read_divisor(curve, out[:length], 1)
        self.steps[(*kind, r.weight(a), after and r.weight(after))] += 1
        self.steps["24 without an output"] += number == 24 and frame.output == 0

    def take_pole(self, frame, fields, out):
        """Scans by what they are answered, and pole files."""
        number, _, length = fields[:3]
        if frame.operation == SCAN and number in (0, 20):
            self.scanned[frame.curve, frame.first].add(number)
        if frame.operation == WRITE_POLE_FILE and number == 0:
            self.files["written"].add(out[:length])
        if frame.operation == READ_POLE_FILE:
            self.files["read" if number == 0 else "refused"].add(frame.first)

    def files_cut(self):
        """Version and genus of the files that are read, and refused where they are cut at any byte or have one more."""
        for file in self.files["read"]:
            refused = [file[:n] for n in range(len(file))] + [file + b"\0"]
            if self.files["refused"].issuperset(refused):
                yield file[13], file[14]

    def by_weights(self):
        return [(kind, n) for kind, n in self.steps.items() if not isinstance(kind, str)]

    def walks(self):
        """Genus, p and version of the curves that are walked from neutral to the last; a walk that isn't the census is an error."""
        for curve, follows in self.walked.items():
            walk = [r.NEUTRAL]
            while follows.get(walk[-1]) is not None:
                walk.append(follows[walk[-1]])
            if walk[-1] in follows:
                if tuple(walk) != splits.all_divisors(curve):
                    raise AssertionError("a walk that isn't the census of %r" % (curve,))
                yield curve.g, curve.p, 1 if curve.witness is None else 2

    def shortfalls(self):
        short = []

        def need(what, count, least):
            if count < least:
                short.append("%s: %d of %d" % (what, count, least))

        calls = (ADD, DOUBLE, OPPOSITE, MULTIPLY, TOTAL_BATCH, SCAN, FIRST_REPEAT)
        need("sums, doubles, opposites, multiples, totals, scans, repeats", sum(self.done[o] for o in calls), 2000)
        for (g, p), kinds in self.kinds.items():
            for kind, least in KINDS.items():
                if kind != TWO_STEPS or g == 3:
                    need("g = %d, p = %d: %s" % (g, p, kind), kinds[kind], least)
            if g == 2 and kinds[TWO_STEPS]:
                short.append("two reductions in genus 2")
            for operation in calls:
                need("g = %d, p = %d: %s" % (g, p, NAMES[operation]), self.done_per_curve[(g, p), operation], 5)
        for shape in SHAPES:
            least = 8 if shape == (2, 0, 0, 0, 0) or shape == (3, 0, 0, 0, 0) else 12
            need("shape %d %d %d %d %d" % shape, self.shapes[shape], least)
        for key in classes.CLASSES:
            need("g = %d, %s: %s" % key, self.classes[key], classes.LEAST)
        if set(self.shapes) - set(SHAPES):
            short.append("shapes that can't be: %s" % (set(self.shapes) - set(SHAPES)))
        for number in NUMBERS:
            need("number %d" % number, sum(n for (_, k), n in self.numbers.items() if k == number), 10)
        for what in ("of 257 digits", "of 256 digits", "with a digit -1", "of a divisor of order 2", "of a divisor of order 3"):
            need("multiples " + what, self.multiples[what], 8)
        for g, scalar in itertools.product(GENERA, SCALARS):
            need("g = %d: scalar %s" % (g, scalar.hex()), self.multiples[g, scalar], 1)
        for what in ("below the need", "below the need by one", "empty", "equal to the need", "above the need"):
            need("outputs " + what, self.outputs[what], ENOUGH)
        for what, least in (
            ("empty", 10), ("of one", 10), ("of 4,096", 2), ("over 4,096", 2), ("a cut last record", 10), ("a repeat", 50),
            ("no repeat", 50),
        ):  # fmt: skip
            need("batches: " + what, self.batches[what], least)
        for g in GENERA:
            for what in ["a repeat by sign, an equal pair behind it"] + ["%s, weight %d" % (kind, w) for kind in REPEATS for w in range(1, g + 1)]:
                need("g = %d: %s" % (g, what), self.repeats[g, what], 5)
        for fault in witnesses.FAULTS:
            need("version 2: " + fault + ", alone", self.witnessed[fault + ", alone"], 5)
        for what in ["k is 0", "k is 16", "k is over 16"] + ["p = %d" % p for p in (3, 5, 7, *LARGE)] + ["k = 1", "k = 2", "k = 12", "k = 15"]:
            need("version 2: " + what, self.witnessed[what], 5)
        for g, operation in itertools.product(GENERA, CALLS):
            need("version 2, g = %d: %s" % (g, NAMES[operation]), self.witnessed[g, "done, " + NAMES[operation]], 5)
            if operation != NEXT_DIVISOR:
                need("g = %d, p = 2^61 - 1: %s" % (g, NAMES[operation]), self.done_per_curve[(g, LARGEST), operation], 1)
        composites = set(filter(witnesses.is_composite, range(3, 3000, 2)))
        need("version 2: composite numbers below 3,000", len(self.composites & composites), len(composites))
        for g, version, what in itertools.product(GENERA, (1, 2), ("right", "wrong")):
            need("orders, g = %d, version %d: %s" % (g, version, what), self.key_orders[g, version, what], 15)
        for fault in orders.FAULTS:
            alone = fault + ("" if fault == orders.MORE else ", alone")  # 33 primes are never just those of an order
            need("orders: " + alone, self.key_orders[alone], 4)
        for what, least in (("n = 1", 10), ("with leading zeros", 20), ("of 32 bytes", 5), ("of over 100 bits", 2), ("15 primes", 2), ("2^31 - 1 listed", 2)):
            need("orders: " + what, self.key_orders[what], least)
        for g, version in itertools.product(GENERA, (1, 2)):
            for shape in [shape for shape in splits.SHAPES if shape[0] <= g] + [(0, splits.NONE, False), (1, splits.NONE, False)]:
                need("splits, g = %d, version %d: %s" % (g, version, splits.words(shape)), self.splits[g, version, shape], 4)
        for g, p in itertools.product(GENERA, (TWOS, LARGEST)):
            for shape in splits.shapes(g, p):
                need("splits, g = %d, p = %d: %s" % (g, p, splits.words(shape)), self.splits[g, p, shape], 2)
        whole = self.curves_split_whole()
        for g, p in itertools.product(GENERA, SPLIT_PRIMES):
            if g == 2 or p <= 7:
                need("splits, g = %d, p = %d: every divisor of a curve" % (g, p), (g, p) in whole, 1)
        for what in ("weight 2, a byte short", "weight 3, a byte short", "weight 2, just enough room", "weight 3, just enough room", "26 without an output"):
            need("splits: " + what, self.splits[what], 20)
        walks = set(self.walks())
        for g, version in itertools.product(GENERA, (1, 2)):
            for p in (3, 5):
                need("walks, g = %d, p = %d, version %d" % (g, p, version), (g, p, version) in walks, 1)
            for w in range(g + 1):
                for after in (w, w + 1) if 0 < w < g else (1,) if w == 0 else (w, None):
                    need("steps, g = %d, version %d: from weight %d to %s" % (g, version, w, after), self.steps[g, version, w, after], 3)
        for p in (17, 19, 1009, 65537, *LARGE):
            need("steps: 25, p = %d" % p, self.steps["25, p = %d" % p], 4)
        for what in ("a byte short", "24 without an output", "25 without an output"):
            need("steps: " + what, self.steps[what], 10)
        for g in GENERA:
            mixed = sum(1 for (curve, _), answers in self.scanned.items() if curve[5] == g and answers == {0, 20})
            need("scans, g = %d: taken for one total and refused 20 for another" % g, mixed, 10)
        need("pole files that are written and read", len(self.files["written"] & self.files["read"]), 20)
        for kind in itertools.product((1, 2), GENERA):
            need("pole files of version %d, g = %d that are cut at every byte" % kind, kind in set(self.files_cut()), 1)
        for number in (*range(1, 8), 9, 10, 11, 13, 18, 21, 22, 23):
            need("reading a pole file: number %d" % number, self.numbers[READ_POLE_FILE, number], 4)
        # Neighbours in the order: each two stages that follow each other and can go together, in every call and version.
        for operation, version in itertools.product(CALLS, CURVE_FAULTS):
            stages = base_of(None, operation, None, version).stages
            for one, other in zip(stages, stages[1:]):
                cut_with_more = one[1] in ("8a", "1k")  # an empty record has no other fault, nor has one that ends before k
                in_batch = operation in BATCHES and "8a" in (one[1], other[1])
                if not cut_with_more and not in_batch and is_asked(operation, version, stages, (one, other)):
                    names = tuple("%s %s" % stage for stage in (one, other))
                    need("%s, version %d: %s before %s" % (NAMES[operation], version, *names), self.orders[(NAMES[operation], version) + names], 1)
        return short

    def lines(self, size):
        yield "%d frames, %d bytes of input, %d bytes of expected text" % (len(self.frames), size, sum(map(len, self.text)))
        yield ""
        yield "calls by number answered"
        yield "%-16s" % "" + "".join("%6d" % number for number in NUMBERS) + "     all"
        for operation in CALLS:
            row = [self.numbers[operation, number] for number in NUMBERS]
            yield "%-16s" % NAMES[operation] + "".join("%6d" % n if n else "     ." for n in row) + "%8d" % sum(row)
        row = [sum(self.numbers[o, number] for o in CALLS) for number in NUMBERS]
        yield "%-16s" % "all" + "".join("%6d" % n for n in row) + "%8d" % sum(row)
        yield ""
        yield "sums that were done, by genus, prime and kind (a sum may be of several kinds)"
        yield "%-14s" % "" + "".join("%16s" % kind for kind in KINDS) + "     all"
        for (g, p), kinds in self.kinds.items():
            row = "".join("%16d" % kinds[kind] for kind in KINDS)
            yield "%d %-12d" % (g, p) + row + "%8d" % self.done_per_curve[(g, p), ADD]
        yield ""
        others = (DOUBLE, "flat double", OPPOSITE, MULTIPLY, TOTAL_BATCH, FIRST_REPEAT, SCAN)
        yield "other calls that were done, by genus and prime"
        yield "%-14s" % "" + "".join("%14s" % (o if isinstance(o, str) else NAMES[o]) for o in others)
        for key in self.kinds:
            yield "%d %-12d" % key + "".join("%14d" % self.done_per_curve[key, o] for o in others)
        yield ""
        yield "shapes of sums: g, degree of d, degree composed, reductions, weight of the result: how many"
        shapes = ["%d %d %d %d %d: %d" % (shape + (n,)) for shape, n in sorted(self.shapes.items())]
        for k in range(0, len(shapes), 6):
            yield "   ".join("%-15s" % shape for shape in shapes[k : k + 6])
        yield ""
        yield "sums and doubles by what a formula must tell apart (classes.py); at least %d of each" % classes.LEAST
        for g, call in itertools.product(GENERA, ("add", "double")):
            of_each = ["%s: %d" % (key[2], self.classes[key]) for key in classes.CLASSES if key[:2] == (g, call)]
            for k in range(0, len(of_each), 5):
                yield "%d %-8s" % (g, call) + "".join("%-28s" % one for one in of_each[k : k + 5]).rstrip()
        yield ""
        yield "outputs: " + ", ".join("%s %d" % pair for pair in sorted(self.outputs.items()))
        yield "batches: " + ", ".join("%s %d" % pair for pair in sorted(self.batches.items()))
        for g in GENERA:
            yield "repeats, g = %d: " % g + ", ".join("%s %d" % (what, n) for (h, what), n in sorted(self.repeats.items()) if h == g)
        named = sorted((what, n) for what, n in self.multiples.items() if isinstance(what, str))
        yield "multiples: " + ", ".join("%s %d" % pair for pair in named)
        for g in GENERA:
            done = sorted((what[1][6:], n) for what, n in self.witnessed.items() if isinstance(what, tuple) and what[0] == g)
            yield "version 2, g = %d, done: " % g + ", ".join("%s %d" % pair for pair in done)
        yield "version 2: " + ", ".join("%s %d" % (what, n) for what, n in sorted((k, n) for k, n in self.witnessed.items() if isinstance(k, str)))
        yield "version 2: %d composite numbers below 3,000 refused with the primes of one less" % len(self.composites)
        for g, version in itertools.product(GENERA, (1, 2)):
            yield "orders, g = %d, version %d: right %d, wrong %d" % (g, version, *(self.key_orders[g, version, what] for what in ("right", "wrong")))
        yield "orders: " + ", ".join("%s %d" % (what, n) for what, n in sorted((k, n) for k, n in self.key_orders.items() if isinstance(k, str)))
        for shape in [(0, splits.NONE, False), (1, splits.NONE, False), *splits.SHAPES]:
            kinds = [(g, version) for g in GENERA for version in (1, 2) if shape[0] <= g]
            yield "splits, %s: " % splits.words(shape) + ", ".join("g = %d, version %d %d" % (*kind, self.splits[(*kind, shape)]) for kind in kinds)
        yield "splits: " + ", ".join("%s %d" % (what, n) for what, n in sorted((k, n) for k, n in self.splits.items() if isinstance(k, str)))
        yield "splits, every divisor of a curve: " + ", ".join("g = %d, p = %d" % key for key in sorted(self.curves_split_whole()))
        for g, version in itertools.product(GENERA, (1, 2)):
            done = sorted((w, after or 24, n) for (h, v, w, after), n in self.by_weights() if (h, v) == (g, version))
            words = ["from %d to %d %d" % step if step[1] != 24 else "24 %d" % step[2] for step in done]
            yield "steps, g = %d, version %d, weights: " % (g, version) + ", ".join(words)
        yield "steps: " + ", ".join("%s %d" % (what, n) for what, n in sorted((k, n) for k, n in self.steps.items() if isinstance(k, str)))
        yield "walks from neutral to the last: " + ", ".join("g = %d, p = %d, version %d" % walk for walk in sorted(self.walks()))
        mixed = sum(1 for answers in self.scanned.values() if answers == {0, 20})
        yield "scans that are taken for one total and refused 20 for another: %d" % mixed
        yield "pole files: %d written, %d read, %d of them both; %d refused" % (
            len(self.files["written"]), len(self.files["read"]), len(self.files["written"] & self.files["read"]), len(self.files["refused"]),
        )  # fmt: skip
        yield "pole files cut at every byte: " + ", ".join("version %d, g = %d" % kind for kind in sorted(self.files_cut()))
        singles = sum(1 for order in self.orders if len(order) == 3)
        yield "refusals: %d stages by themselves, %d pairs of faults where the earlier must win" % (
            singles,
            len(self.orders) - singles,
        )
        for name in ("curve", "first", "second", "primes"):
            yield "longest %s: %d bytes" % (name, max(n for (_, k), n in self.longest.items() if k == name))


def sums_by_ideals(frames):
    """Every sum and double that was done, once more by the other method; answers how many."""
    checked = 0
    for frame in frames:
        if frame.operation not in (ADD, DOUBLE):
            continue
        (number, _, length), out = answer(frame)
        if number == 0:
            curve = r.read_curve(frame.curve)
            a = r.read_divisor(curve, frame.first, 1)
            b = r.read_divisor(curve, frame.second, 2) if frame.operation == ADD else a
            got = ideals.sum_by_ideals(curve.g, curve.p, curve.f, a, b)
            if r.write_divisor(r.Divisor(*got)) != out[:length]:
                raise AssertionError("the two methods differ on %r" % (frame,))
            checked += 1
    return checked


def main():
    parser = argparse.ArgumentParser(description="makes or checks the test vectors", epilog="see the head of the file")
    parser.add_argument("seed")
    parser.add_argument("--check", action="store_true")
    root = os.path.join(os.path.dirname(os.path.abspath(__file__)), "..", "..", "crates", "test_vectors")
    parser.add_argument("--input", default=os.path.normpath(os.path.join(root, "data", "vectors")))
    parser.add_argument("--expected", default=os.path.normpath(os.path.join(root, "stdout")))
    options = parser.parse_args()

    collection = made(options.seed)
    data = b"".join(map(encoded, collection.frames))
    if options.check:
        given = read_parts(options.input)
        with open(options.expected, "rb") as file:
            expected = file.read().decode("ascii")
    else:
        given, expected = data, None
    census = Census(decoded(given), collection.orders)
    text = "".join(census.text)
    for line in census.lines(len(given)):
        print(line)
    short = census.shortfalls()
    if len(given) > MOST_BYTES:
        short.append("%d bytes of input, over %d" % (len(given), MOST_BYTES))
    if options.check:
        if given != data:
            short.append("the input isn't what seed %s makes" % options.seed)
        if expected != text + corners.made()[1]:
            short.append("the expected text isn't what the frames answer")
        print("%d sums and doubles agree with ideals.py" % sums_by_ideals(census.frames))
    else:
        parts = in_parts(collection.frames, census.text)
        files = list(zip(part_paths(options.input, len(parts)), parts)) + [(options.expected, (text + corners.made()[1]).encode("ascii"))]
        for path, content in files:
            os.makedirs(os.path.dirname(os.path.abspath(path)), exist_ok=True)
            with open(path, "wb") as file:
                file.write(content)
        for path in part_paths(options.input, 26)[len(parts) :]:  # parts of a longer set, made before
            if os.path.exists(path):
                os.remove(path)
    for line in short:
        print("SHORT " + line)
    print("the census is complete" if not short else "the census falls short")
    return 1 if short else 0


if __name__ == "__main__":
    sys.exit(main())
