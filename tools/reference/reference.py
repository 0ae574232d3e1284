#!/usr/bin/env python3
"""reference.py: document 01 in plain Python, a separate implementation to compare the product with.

    python3 tools/reference/reference.py tally DIR     prints what the program `tally` prints for DIR's files `curve` and `batch`
    python3 tools/reference/reference.py census DIR    prints what the program `census` prints for DIR's file `curve`

It was written from document 01 and, of document 02, W-201, W-205, W-207, W-208, W-209, W-211, W-213 and W-214, and shares no code with the product.
Where the document leaves a choice (the flat running total, the place in a double, an opposite or a multiple, the order of 16 and 17) it follows the
project's settled readings, as the product does: on those the two agreeing says nothing about the reading. Headings in quotes are the document's
own. Each public call is one function from the bytes lent to it to a pair: the answer's fields in the order of the call's answer, and the
output as it returns (None where the call has no output). The output is lent as bytes, handed back as bytes.
selfcheck.py holds it to the document.
"""
import itertools
import sys
from collections import namedtuple
from functools import lru_cache

MARK = b"HJC"
POLE_MARK, POLE_VERSION = b"HJP", 1  # of a pole file
GREATEST_PRIME = {1: 2147483647, 2: 2**61 - 1}  # by the version of the curve record
MOST_LISTED = 15  # primes of a witness
MOST_OF_AN_ORDER = 32  # primes
LISTED_BELOW = 2**31
MOST_RECORDS = 4096
MOST_SCALAR_BYTES = 32
MOST_FILE_BYTES = 65536
GREATEST_FOR_TRAINING = 13  # p

# ---------------------------------------------------------------------------------------------------------
# Polynomials over the whole numbers modulo p: tuples from the constant term up, without zeros at the end.
# The zero polynomial is () and has degree -1 here.
# ---------------------------------------------------------------------------------------------------------

ZERO = ()
ONE = (1,)


def polynomial(coefficients, p):
    reduced = [c % p for c in coefficients]
    while reduced and reduced[-1] == 0:
        reduced.pop()
    return tuple(reduced)


def degree(a):
    return len(a) - 1


def plus(a, b, p):
    longer = max(len(a), len(b))
    return polynomial([(a[i] if i < len(a) else 0) + (b[i] if i < len(b) else 0) for i in range(longer)], p)


def minus(a, b, p):
    return plus(a, [-c for c in b], p)


def times(a, b, p):
    if not a or not b:
        return ZERO
    product = [0] * (len(a) + len(b) - 1)
    for i, c in enumerate(a):
        for j, e in enumerate(b):
            product[i + j] += c * e
    return polynomial(product, p)


def divide(a, b, p):
    """Quotient and remainder; b isn't zero."""
    inverse = pow(b[-1], -1, p)
    rest = list(a)
    quotient = [0] * max(0, len(a) - len(b) + 1)
    for shift in range(len(a) - len(b), -1, -1):
        factor = rest[shift + len(b) - 1] * inverse % p
        quotient[shift] = factor
        for i, c in enumerate(b):
            rest[shift + i] = (rest[shift + i] - factor * c) % p
    return polynomial(quotient, p), polynomial(rest, p)


def quotient_of(a, b, p):
    """a / b where b divides a."""
    quotient, rest = divide(a, b, p)
    if rest != ZERO:
        raise ArithmeticError("a division that the document takes for exact isn't")
    return quotient


def modulo(a, b, p):
    return divide(a, b, p)[1]


def monic(a, p):
    return polynomial([c * pow(a[-1], -1, p) for c in a], p)


def greatest_common_divisor(a, b, p):
    """d, s, t with d = s·a + t·b monic. Not both a and b are zero."""
    d, s, t = a, ONE, ZERO
    e, s_next, t_next = b, ZERO, ONE
    while e != ZERO:
        q, rest = divide(d, e, p)
        d, e = e, rest
        s, s_next = s_next, minus(s, times(q, s_next, p), p)
        t, t_next = t_next, minus(t, times(q, t_next, p), p)
    scale = (pow(d[-1], -1, p),)
    return times(d, scale, p), times(s, scale, p), times(t, scale, p)


def derivative(a, p):
    return polynomial([i * c for i, c in enumerate(a)][1:], p)


def value_at(a, x, p):
    value = 0
    for c in reversed(a):
        value = (value * x + c) % p
    return value


def power_modulo(a, n, m, p):
    """The n-th power of a modulo m."""
    power = modulo(ONE, m, p)
    for bit in bin(n)[2:]:
        power = modulo(times(power, power, p), m, p)
        if bit == "1":
            power = modulo(times(power, a, p), m, p)
    return power


TRIED = 2000  # below it the roots modulo p are found by trying all numbers


@lru_cache(maxsize=None)
def roots_of(a, p):
    """The different roots of a modulo p, as numbers below p. x^p - x has each number once for a root, so that a's greatest common divisor
    with it is the product of x less each of them."""
    if p < TRIED:
        return tuple(x for x in range(p) if value_at(a, x, p) == 0)
    x = (0, 1)
    product = greatest_common_divisor(a, minus(power_modulo(x, p, a, p), x, p), p)[0]
    roots = parted(product, 0, p)
    if len(roots) != degree(product) or any(value_at(a, x, p) for x in roots):
        raise ArithmeticError("roots that aren't those of the polynomial")
    return tuple(sorted(roots))


def parted(product, shift, p):
    """The roots of a product of different x - r: some half of the r + shift are squares, and have the (p-1)/2-th power 1."""
    if degree(product) < 2:
        return [-product[0] % p] if degree(product) == 1 else []
    squares = minus(power_modulo((shift, 1), (p - 1) // 2, product, p), ONE, p)
    part = greatest_common_divisor(product, squares, p)[0]
    return parted(part, shift + 1, p) + parted(quotient_of(product, part, p), shift + 1, p)


# ---------------------------------------------------------------------------------------------------------
# Curves and divisors as values
# ---------------------------------------------------------------------------------------------------------

Witness = namedtuple("Witness", "a primes")  # W-201: the base, and the listed primes
# f with its leading 1, which the record doesn't store; a record of version 2 has a witness, one of version 1 has None
Curve = namedtuple("Curve", "g p f witness", defaults=(None,))
Divisor = namedtuple("Divisor", "u v")  # u with its leading 1; v without zeros at the end

NEUTRAL = Divisor(ONE, ZERO)  # "Weight 0 is the neutral divisor, u = 1, v = 0"


def weight(divisor):
    return degree(divisor.u)


@lru_cache(maxsize=None)
def is_prime(n):
    """By trial division: n is small enough for that."""
    trial = 2
    while trial * trial <= n:
        if n % trial == 0:
            return False
        trial += 1
    return n >= 2


def is_odd_and_in_range(p, version):
    """ "p is even, below 3 or above the limit" is 5, in both versions."""
    return p % 2 == 1 and 3 <= p <= GREATEST_PRIME[version]


def is_made_up_of(n, primes):
    """W-201 and W-214: "each listed number is a prime below 2^31", "distinct", "in rising order"; n, above 0, "is made up of powers of just
    these, each of them dividing it"."""
    if not all(q < LISTED_BELOW and is_prime(q) for q in primes):
        return False
    if list(primes) != sorted(set(primes)):
        return False
    left = n
    for q in primes:
        if left % q != 0:
            return False
        while left % q == 0:
            left //= q
    return left == 1


@lru_cache(maxsize=None)
def is_shown_prime(p, witness):
    """W-201: "Accept p, whoever proposed the witness, when" p - 1 is made up of the listed primes, "a^(p-1) is 1 and no a^((p-1)/q) is 1
    modulo p"; a is "1 to p - 1"."""
    a, primes = witness
    if not 1 <= a <= p - 1 or not is_made_up_of(p - 1, primes):
        return False
    return pow(a, p - 1, p) == 1 and all(pow(a, (p - 1) // q, p) != 1 for q in primes)


@lru_cache(maxsize=None)
def has_repeated_factor(f, p):
    """ "f and its derivative share a factor of degree 1 or more"; a derivative of 0 shares f itself."""
    return degree(greatest_common_divisor(f, derivative(f, p), p)[0]) >= 1


def divides_f_less_v_squared(curve, u, v):
    """ "u divides f - v²"."""
    return modulo(minus(curve.f, times(v, v, curve.p), curve.p), u, curve.p) == ZERO


# ---------------------------------------------------------------------------------------------------------
# "The sum"
# ---------------------------------------------------------------------------------------------------------


def compose(curve, first, second):
    """ "Composition of (u1, v1) and (u2, v2)"."""
    p = curve.p
    (u1, v1), (u2, v2) = first, second
    # "d is the monic greatest common divisor of u1, u2 and v1 + v2, with d = s1·u1 + s2·u2 + s3·(v1 + v2)"
    v_sum = plus(v1, v2, p)
    common, e1, e2 = greatest_common_divisor(u1, u2, p)
    d, c, s3 = greatest_common_divisor(common, v_sum, p)
    return composed_with(curve, first, second, d, times(c, e1, p), times(c, e2, p), s3)


def composed_with(curve, first, second, d, s1, s2, s3):
    p = curve.p
    (u1, v1), (u2, v2) = first, second
    # "Then u = u1·u2/d²"
    u = quotient_of(times(u1, u2, p), times(d, d, p), p)
    # "and v is (s1·u1·v2 + s2·u2·v1 + s3·(v1·v2 + f))/d modulo u"
    numerator = times(s1, times(u1, v2, p), p)
    numerator = plus(numerator, times(s2, times(u2, v1, p), p), p)
    numerator = plus(numerator, times(s3, plus(times(v1, v2, p), curve.f, p), p), p)
    return Divisor(u, modulo(quotient_of(numerator, d, p), u, p))


def reduce(curve, composed):
    """ "Reduction: while deg u > g, replace u by (f - v²)/u made monic, then v by -v modulo the new u".
    Answers the divisor and the number of steps."""
    p = curve.p
    u, v = composed
    steps = 0
    while degree(u) > curve.g:
        u = monic(quotient_of(minus(curve.f, times(v, v, p), p), u, p), p)
        v = modulo(minus(ZERO, v, p), u, p)
        steps += 1
    return Divisor(u, v), steps


def sum_and_steps(curve, first, second):
    return reduce(curve, compose(curve, first, second))


def sum_of(curve, first, second):
    return sum_and_steps(curve, first, second)[0]


def double_of(curve, divisor):
    """ "Double: the sum of a divisor with itself"."""
    return sum_of(curve, divisor, divisor)


def opposite_of(curve, divisor):
    """ "Opposite: (u, -v modulo p)"."""
    return Divisor(divisor.u, minus(ZERO, divisor.v, curve.p))


def signed_digits_of(n):
    """W-208: "digits -1, 0 and 1, no two neighbours both nonzero", without leading zeros, that weigh up to n; the highest first."""
    digits = []
    while n != 0:
        digit = 0
        if n % 2 == 1:
            digit = 1 if n % 4 == 1 else -1  # so that (n - digit) / 2 is even, and the next digit 0
        digits.insert(0, digit)
        n = (n - digit) // 2
    return digits


def multiple_of(curve, divisor, n):
    """ "n-fold multiple: n copies summed, neutral for n = 0", by left-to-right double-and-add over the signed digits.
    Answers the multiple and the two counts, as they were made."""
    if n == 0:
        return NEUTRAL, 0, 0
    result, doublings, additions = divisor, 0, 0
    for digit in signed_digits_of(n)[1:]:  # the digits after the leading 1
        result, doublings = double_of(curve, result), doublings + 1
        if digit != 0:
            added = divisor if digit == 1 else opposite_of(curve, divisor)
            result, additions = sum_of(curve, result, added), additions + 1
    return result, doublings, additions


def is_order_of(curve, divisor, n, primes):
    """W-214: "accept n as the order when n > 0, n is made up of powers of just these primes, each of them dividing n, the n-fold is neutral
    and no n/q-fold is"."""
    if n == 0 or not is_made_up_of(n, primes):
        return False

    def is_neutral(m):
        return multiple_of(curve, divisor, m)[0] == NEUTRAL

    return is_neutral(n) and not any(is_neutral(n // q) for q in primes)


def parts_of(curve, divisor):
    """W-213: the two that a divisor is split into, or None "exactly when u has no root modulo p, or weight is below 2"."""
    p = curve.p
    roots = roots_of(divisor.u, p) if weight(divisor) >= 2 else ()
    if not roots:
        return None
    if weight(divisor) == 2:
        # "two weight 1 divisors whose sum is it, the one with smaller u_0 first": u_0 is the root's opposite
        root = min(roots, key=lambda x: -x % p)
    else:
        # "a weight 1 divisor at the largest root of u as a number below p, then the weight 2 rest"
        root = max(roots)
    at_root = polynomial([-root, 1], p)
    return [Divisor(u, modulo(divisor.v, u, p)) for u in (at_root, quotient_of(divisor.u, at_root, p))]


def rows_above(row, p):
    """Rows of as many numbers below p, the first weighing most, that come after this one."""
    number = 0
    for c in row:
        number = p * number + c
    for above in range(number + 1, p ** len(row)):
        yield tuple(above // p**k % p for k in reversed(range(len(row))))


def next_of(curve, divisor):
    """W-211: "the next valid divisor after a given one, in order of weight and then of record bytes", None after the last. Every pair of this
    weight that comes later is tried, then every one of a higher weight."""
    g, p, w = curve.g, curve.p, weight(divisor)
    later = rows_above(divisor.u[:w] + divisor.v + (0,) * (w - len(divisor.v)), p)
    higher = (row for k in range(w + 1, g + 1) for row in itertools.product(range(p), repeat=2 * k))
    for row in itertools.chain(later, higher):
        k = len(row) // 2
        found = Divisor(row[:k] + (1,), polynomial(row[k:], p))
        if divides_f_less_v_squared(curve, found.u, found.v):
            return found
    return None


def census_of(curve):
    """W-211: "Starting from neutral, each valid divisor appears exactly once"."""
    divisor = NEUTRAL
    while divisor is not None:
        yield divisor
        divisor = next_of(curve, divisor)


def total_of(curve, divisors):
    """ "Batch total: neutral, then each record added from first to last"."""
    total = NEUTRAL
    for divisor in divisors:
        total = sum_of(curve, total, divisor)
    return total


def first_repeat_of(divisors, opposite):
    """ "The first equal pair: least j, then least i < j, or none": (i, j) from 1, or (0, 0). By W-205 "two meters are
    the same when their divisors are equal or opposite"; `opposite` gives a divisor's."""
    first_place = {}
    for j, divisor in enumerate(divisors, start=1):
        places = [first_place[same] for same in (divisor, opposite(divisor)) if same in first_place]
        if places:
            return min(places), j
        first_place[divisor] = j
    return 0, 0


def first_repeat_on(curve, divisors):
    return first_repeat_of(divisors, lambda divisor: opposite_of(curve, divisor))


# ---------------------------------------------------------------------------------------------------------
# "The records", with the refusals in the order of "Numbers the tablet shows"
# ---------------------------------------------------------------------------------------------------------


class Refused(Exception):
    def __init__(self, number, place=0):
        super().__init__(number, place)
        self.number, self.place = number, place


def number_at(data, start):
    """ "All numbers in records are big-endian", here in 8 bytes."""
    return int.from_bytes(data[start : start + 8], "big")


def read_curve(record):
    """Order: "curve 1 (short), 2, 3, 4, 1 (exact), 5, 6, 7"; what version 2 has in the place of 1 (exact) and 5, `read_witness` says."""
    if len(record) < 6:
        raise Refused(1)
    if record[0:3] != MARK:
        raise Refused(2)
    version = int.from_bytes(record[3:5], "big")
    if version not in GREATEST_PRIME:
        raise Refused(3)
    g = record[5]
    if g not in (2, 3):
        raise Refused(4)
    end = {2: 54, 3: 70}[g]  # of the coefficients
    p, witness = number_at(record, 6), None
    if version == 2:
        witness = read_witness(record, p, end)
    elif len(record) != end:
        raise Refused(1)
    elif not (is_odd_and_in_range(p, version) and is_prime(p)):
        raise Refused(5)
    stored = [number_at(record, 14 + 8 * i) for i in range(2 * g + 1)]
    if any(c >= p for c in stored):
        raise Refused(6)
    f = tuple(stored) + (1,)
    if has_repeated_factor(f, p):
        raise Refused(7)
    return Curve(g, p, f, witness)


def read_witness(record, p, start):
    """W-201: "a base a (8 bytes, 1 to p - 1), a count k (1 byte, 1 to 15), and k distinct primes in rising order, 8 bytes each"; "k
    outside 1 to 15 also gives 18, just before the exact length test, and a record that ends before k gives 1"; "a failed witness gives
    the new refusal 18, after 5"."""
    if len(record) < start + 9:
        raise Refused(1)
    k = record[start + 8]
    if not 1 <= k <= MOST_LISTED:
        raise Refused(18)
    if len(record) != start + 9 + 8 * k:
        raise Refused(1)
    if not is_odd_and_in_range(p, 2):
        raise Refused(5)
    witness = Witness(number_at(record, start), tuple(number_at(record, start + 9 + 8 * i) for i in range(k)))
    if not is_shown_prime(p, witness):
        raise Refused(18)
    return witness


def write_curve(curve):
    version = 1 if curve.witness is None else 2
    head = MARK + version.to_bytes(2, "big") + bytes([curve.g]) + curve.p.to_bytes(8, "big")
    record = head + b"".join(c.to_bytes(8, "big") for c in curve.f[:-1])
    if version == 2:
        a, primes = curve.witness
        record += a.to_bytes(8, "big") + bytes([len(primes)]) + b"".join(q.to_bytes(8, "big") for q in primes)
    return record


def read_front_divisor(curve, data, place, fits):
    """The divisor at the front of the data; fits(length of record, length of data) is the rule for 8.
    Order: "each 8 (empty), 9, 8 (length), 10, 11". Answers the divisor and the bytes taken."""
    if len(data) == 0:
        raise Refused(8, place)
    w = data[0]
    if w > curve.g:
        raise Refused(9, place)
    length = 1 + 16 * w
    if not fits(length, len(data)):
        raise Refused(8, place)
    u = [number_at(data, 1 + 8 * i) for i in range(w)]
    v = [number_at(data, 1 + 8 * (w + i)) for i in range(w)]
    if any(c >= curve.p for c in u + v):
        raise Refused(10, place)
    divisor = Divisor(tuple(u) + (1,), polynomial(v, curve.p))
    if not divides_f_less_v_squared(curve, divisor.u, divisor.v):
        raise Refused(11, place)
    return divisor, length


def read_divisor(curve, record, place):
    """A record by itself has exactly 1 + 16w bytes."""
    return read_front_divisor(curve, record, place, lambda length, given: given == length)[0]


def read_batch(curve, batch):
    """Records one after another; a byte after a record starts the next. In a batch 8 is "fewer bytes remain", and
    "14 comes only after 4,096 good records and before the next is looked at"."""
    divisors, start = [], 0
    while start < len(batch):
        if len(divisors) == MOST_RECORDS:
            raise Refused(14)
        front = batch[start : start + 49]  # no record has more bytes
        divisor, taken = read_front_divisor(curve, front, len(divisors) + 1, lambda length, given: given >= length)
        divisors.append(divisor)
        start += taken
    return divisors


def write_divisor(divisor):
    """ "One byte of weight w, then u_0 to u_(w-1), then v_0 to v_(w-1), 8 bytes each"."""
    w = weight(divisor)
    numbers = divisor.u[:w] + divisor.v + (0,) * (w - len(divisor.v))
    return bytes([w]) + b"".join(c.to_bytes(8, "big") for c in numbers)


def read_scalar(scalar):
    """ "0 to 32 bytes, unsigned. Empty means 0; leading zeros are allowed"."""
    if len(scalar) > MOST_SCALAR_BYTES:
        raise Refused(12)
    return int.from_bytes(scalar, "big")


def read_primes(primes):
    """W-214: "a list of up to 32" numbers, "4 bytes each"; 27 where it is "too long" or "not whole"."""
    if len(primes) % 4 != 0 or len(primes) > 4 * MOST_OF_AN_ORDER:
        raise Refused(27)
    return [int.from_bytes(primes[i : i + 4], "big") for i in range(0, len(primes), 4)]


# ---------------------------------------------------------------------------------------------------------
# The public calls
# ---------------------------------------------------------------------------------------------------------


def answered(work, out=None, extra=0):
    """Runs the work, which answers the result's bytes (None: the call writes nothing) and the extra fields.
    "On 0 the result stands at the front of the output and the rest of the output is unchanged. On any other
    number length and counts are 0 and output and running total are unchanged." 13 comes last of all."""
    try:
        result, more = work()
        if result is not None and len(out) < len(result):
            raise Refused(13)
    except Refused as refusal:
        return (refusal.number, refusal.place, 0) + (0,) * extra, out
    if result is None:
        return (0, 0, 0) + more, out
    return (0, 0, len(result)) + more, result + out[len(result) :]


def check_curve(curve):
    """number, place, length"""

    def work():
        read_curve(curve)
        return None, ()

    return answered(work)


def check_divisor(curve, divisor):
    """number, place, length"""

    def work():
        read_divisor(read_curve(curve), divisor, 1)
        return None, ()

    return answered(work)


def rewrite_curve(curve, out):
    """number, place, length"""
    return answered(lambda: (write_curve(read_curve(curve)), ()), out)


def rewrite_divisor(curve, divisor, out):
    """number, place, length"""
    return answered(lambda: (write_divisor(read_divisor(read_curve(curve), divisor, 1)), ()), out)


def add(curve, a, b, out):
    """number, place, length. The first divisor is finished, to 11, before the second is looked at."""

    def work():
        on = read_curve(curve)
        first = read_divisor(on, a, 1)
        second = read_divisor(on, b, 2)
        return write_divisor(sum_of(on, first, second)), ()

    return answered(work, out)


def double(curve, a, out):
    """number, place, length"""

    def work():
        on = read_curve(curve)
        return write_divisor(double_of(on, read_divisor(on, a, 1))), ()

    return answered(work, out)


def opposite(curve, a, out):
    """number, place, length"""

    def work():
        on = read_curve(curve)
        return write_divisor(opposite_of(on, read_divisor(on, a, 1))), ()

    return answered(work, out)


def multiply(curve, a, scalar, out):
    """number, place, length, doublings, additions; also of the call multiply_inversion_free, which answers the same"""

    def work():
        on = read_curve(curve)
        divisor = read_divisor(on, a, 1)
        result, doublings, additions = multiple_of(on, divisor, read_scalar(scalar))
        # W-207: "refuses with 19 when the divisor given or the result is neutral, after 12 and before 13, place 0"
        if NEUTRAL in (divisor, result):
            raise Refused(19)
        return write_divisor(result), (doublings, additions)

    return answered(work, out, extra=2)


def split(curve, a, out):
    """number, place, length. W-213: "The two records stand one after the other"; 26 comes before 13, place 0."""

    def work():
        on = read_curve(curve)
        parts = parts_of(on, read_divisor(on, a, 1))
        if parts is None:
            raise Refused(26)
        return b"".join(map(write_divisor, parts)), ()

    return answered(work, out)


def read_training_curve(record):
    """W-211: "with larger p refuse with 25, right after the curve's checks"."""
    curve = read_curve(record)
    if curve.p > GREATEST_FOR_TRAINING:
        raise Refused(25)
    return curve


def next_divisor(curve, a, out):
    """number, place, length. W-211: "Divisor checks come next, then 24, then 13"; 24 "after the last", place 0."""

    def work():
        on = read_training_curve(curve)
        found = next_of(on, read_divisor(on, a, 1))
        if found is None:
            raise Refused(24)
        return write_divisor(found), ()

    return answered(work, out)


def check_order(curve, divisor, order, primes):
    """number, place, length. W-214: 27 comes "after the divisor checks", "a scalar of 33 bytes stays 12, before 27"; 19 doesn't touch it."""

    def work():
        on = read_curve(curve)
        a = read_divisor(on, divisor, 1)
        n = read_scalar(order)
        if not is_order_of(on, a, n, read_primes(primes)):
            raise Refused(27)
        return None, ()

    return answered(work)


def total_batch(curve, batch, out):
    """number, place, length, count"""

    def work():
        on = read_curve(curve)
        divisors = read_batch(on, batch)
        return write_divisor(total_of(on, divisors)), (len(divisors),)

    return answered(work, out, extra=1)


def first_repeat(curve, batch):
    """number, place, length, first, second: i and j, "both 0 for none and on a refusal"."""

    def work():
        on = read_curve(curve)
        return None, first_repeat_on(on, read_batch(on, batch))

    return answered(work, extra=2)


# "The pole's list": the flat running total is the tuple weight, u0, u1, u2, v0, v1, v2, count, pole.


def fresh_total(pole):
    """ "A fresh one is neutral with 0"; W-209: "A fresh total is given its pole"."""
    return (0, 0, 0, 0, 0, 0, 0, 0, pole)


def read_running_total(curve, total):
    """15: "a running total's own divisor has a number of p or more or isn't valid on the curve given, or its
    count is over 4,096". A weight above g, or an unused coefficient that isn't 0, isn't a valid flat total."""
    w, u, v, count = total[0], total[1:4], total[4:7], total[7]
    if w > curve.g or any(u[w:]) or any(v[w:]):
        raise Refused(15)
    if any(c >= curve.p for c in u[:w] + v[:w]):
        raise Refused(15)
    divisor = Divisor(u[:w] + (1,), polynomial(v[:w], curve.p))
    if not divides_f_less_v_squared(curve, divisor.u, divisor.v):
        raise Refused(15)
    if count > MOST_RECORDS:
        raise Refused(15)
    return divisor, count


def flat_total(divisor, count, pole):
    w = weight(divisor)
    u = divisor.u[:w] + (0,) * (3 - w)
    v = divisor.v + (0,) * (3 - len(divisor.v))
    return (w,) + u + v + (count, pole)


def scan(total, curve, record):
    """number, place, length, then the nine numbers of the running total as it returns. Order: "A scan into a running total checks curve, 15, 14,
    record"; by W-209 the pole's number "stands in 4 bytes before the divisor record, and a scan shorter than 4 bytes gives 8 with place 1, after 14
    and before 20", which is "for another pole", "after 14 and before the divisor checks"."""
    pole = total[8]
    try:
        on = read_curve(curve)
        held, count = read_running_total(on, total)
        if count == MOST_RECORDS:
            raise Refused(14)
        if len(record) < 4:
            raise Refused(8, 1)
        if int.from_bytes(record[:4], "big") != pole:
            raise Refused(20)
        divisor = read_divisor(on, record[4:], 1)
    except Refused as refusal:
        return (refusal.number, refusal.place, 0) + total, None
    return (0, 0, 0) + flat_total(sum_of(on, held, divisor), count + 1, pole), None


# W-209's pole file: "three letters `HJP`, 16-bit version 1, pole number, a curve record, a 16-bit count up to 4,096, then the divisor records"


def write_pole_file(pole, curve, batch, out):
    """number, place, length. "the writer takes a pole number, a curve record and a batch, checked as before; 13 is last"."""

    def work():
        count = len(read_batch(read_curve(curve), batch))
        head = POLE_MARK + POLE_VERSION.to_bytes(2, "big") + pole.to_bytes(4, "big")
        return head + curve + count.to_bytes(2, "big") + batch, ()

    return answered(work, out)


def front_curve(data):
    """The curve record that the data begin with, as long as its g and in version 2 its k say; all of them where they don't say, or end before,
    and then the record is refused."""
    end = {b"\2": 54, b"\3": 70}.get(data[5:6], len(data))  # of the coefficients
    if data[3:5] == b"\0\2":
        end += 9 + 8 * int.from_bytes(data[end + 8 : end + 9], "big")
    return data[:end]


def read_counted(curve, data, count):
    """So many divisor records: "one cut short gives 23, then 23 for bytes left over". A record that isn't there is cut short too."""
    start = 0
    for place in range(1, count + 1):
        try:
            start += read_front_divisor(curve, data[start : start + 49], place, lambda length, given: given >= length)[1]
        except Refused as refusal:
            raise Refused(23) if refusal.number == 8 else refusal
    if start < len(data):
        raise Refused(23)


def read_pole_file(file, out):
    """number, place, length, pole. "Order: 23 below 9 bytes, 21, 22, the curve's numbers, where a curve cut short gives 1, then 23 for the count,
    then the records"; "The reader answers the pole number (0 on a refusal) and writes out the curve record, then the divisor records"."""

    def work():
        if len(file) < 9:
            raise Refused(23)
        if file[:3] != POLE_MARK:
            raise Refused(21)
        if int.from_bytes(file[3:5], "big") != POLE_VERSION:
            raise Refused(22)
        record = front_curve(file[9:])
        curve = read_curve(record)
        behind = file[9 + len(record) :]
        if len(behind) < 2 or int.from_bytes(behind[:2], "big") > MOST_RECORDS:
            raise Refused(23)
        read_counted(curve, behind[2:], int.from_bytes(behind[:2], "big"))
        return record + behind[2:], (int.from_bytes(file[5:9], "big"),)

    return answered(work, out, extra=1)


# ---------------------------------------------------------------------------------------------------------
# The program
# ---------------------------------------------------------------------------------------------------------


def spaced_record(record):
    """ "The weight byte is two lower-case hexadecimal digits, and each 8-byte number follows as one space and
    16 digits"."""
    return " ".join([record[:1].hex()] + [record[i : i + 8].hex() for i in range(1, len(record), 8)])


def read_file(content):
    """The content, which is None where the file can't be opened or read: 17 before 16."""
    if content is None:
        raise Refused(17)
    if len(content) > MOST_FILE_BYTES:
        raise Refused(16)
    return content


def refused_line(refusal):
    return "refused %d %d\n" % (refusal.number, refusal.place)


def program_text(curve_file, batch_file):
    """What the program `tally` prints. "16 and 17 are tested for `curve` first, then `batch`, 17 before 16, all before the records"."""
    try:
        read_file(curve_file)
        read_file(batch_file)
        curve = read_curve(curve_file)
        divisors = read_batch(curve, batch_file)
    except Refused as refusal:
        return refused_line(refusal)
    i, j = first_repeat_on(curve, divisors)
    repeat = "repeat %d %d" % (i, j) if j else "repeat none"
    total = spaced_record(write_divisor(total_of(curve, divisors)))
    return "count %d\n%s\ntotal %s\n" % (len(divisors), repeat, total)


def read_training_file(curve_file):
    """What the program `census` refuses before the first record."""
    return read_training_curve(read_file(curve_file))


def census_text(curve_file):
    """What the program `census` prints: "each record from neutral on, one a line, as document 01 prints a total but without that word"."""
    try:
        curve = read_training_file(curve_file)
    except Refused as refusal:
        return refused_line(refusal)
    return "".join(spaced_record(write_divisor(divisor)) + "\n" for divisor in census_of(curve))


def file_content(path):
    try:
        with open(path, "rb") as file:
            return file.read(MOST_FILE_BYTES + 1)
    except OSError:
        return None


if __name__ == "__main__":
    if len(sys.argv) == 3 and sys.argv[1] in ("tally", "census"):
        folder = sys.argv[2].rstrip("/")
        curve_in = file_content(folder + "/curve")
        sys.stdout.write(program_text(curve_in, file_content(folder + "/batch")) if sys.argv[1] == "tally" else census_text(curve_in))
    else:
        sys.exit(__doc__)
