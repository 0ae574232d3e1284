"""corner_table.py: document 01's "Street corners" as tables, line by line, and the records they speak of; corners.py runs them
through the calls of the product, selfcheck.py holds reference.py to them. All is written out by hand from the document, the
witnesses and what breaks them from W-201, the scans and pole files and what is wrong with them from W-209, the steps of a
census from W-211, the splits from W-213, the orders and what breaks them from W-214.
"""
from records import curve_record, divisor_record, in_4_bytes, pole_file, scan_record

CURVE_A = curve_record(2, 7, [1, 0, 0, 0, 0])
CURVE_B = curve_record(3, 11, [1, 0, 0, 0, 0, 0, 0])
NEUTRAL = b"\x00"
X_1, X_6, X_2 = (divisor_record([0], [v]) for v in (1, 6, 2))  # (x, 1), (x, 6) and (x, 2)
X6_3 = divisor_record([6], [3])  # (x + 6, 3)
X1_0 = divisor_record([1], [0])  # (x + 1, 0)
XX_1 = divisor_record([0, 0], [1, 0])  # (x², 1)
XX_6 = divisor_record([0, 0], [6, 0])  # (x², 6)
XX6X = divisor_record([0, 6], [1, 2])  # (x² + 6x, 2x + 1)
XXX_X1 = divisor_record([0, 1], [1, 1])  # (x² + x, x + 1), the sum of (x, 1) and (x + 1, 0)
XX4X4 = divisor_record([4, 4], [0, 1])  # (x² + 4x + 4, x)
B_X_10 = divisor_record([0], [10])  # (x, 10)
B_XXX_1 = divisor_record([0, 0, 0], [1, 0, 0])  # (x³, 1)
B_XXX_10 = divisor_record([0, 0, 0], [10, 0, 0])  # (x³, 10)

# A sum has the two divisors and their sum; a double the divisor and twice it; a multiple the divisor, n, the n-fold, its
# doublings and additions.
SUM, DOUBLE, MULTIPLE = "sum", "double", "multiple"
EXAMPLES = (
    (SUM, "A1", CURVE_A, X_1, X6_3, XX6X),
    (DOUBLE, "A2", CURVE_A, X_1, XX_1),
    (MULTIPLE, "A3", CURVE_A, X_1, 3, XX_6, (2, 1)),  # 3 = 4 - 1
    (MULTIPLE, "A4", CURVE_A, X_1, 4, X_6, (2, 0)),
    (MULTIPLE, "A5", CURVE_A, X_1, 5, NEUTRAL, (2, 1)),
    (SUM, "A6", CURVE_A, X_1, X_6, NEUTRAL),
    (DOUBLE, "A7", CURVE_A, X1_0, NEUTRAL),
    (SUM, "A8", CURVE_A, XX6X, X_6, X6_3),
    (SUM, "A9", CURVE_A, XX6X, X_1, XX4X4),
    (DOUBLE, "B1", CURVE_B, B_XXX_1, B_X_10),
    (MULTIPLE, "B2", CURVE_B, X_1, 4, B_XXX_10, (2, 0)),
    (MULTIPLE, "B3", CURVE_B, X_1, 7, NEUTRAL, (3, 1)),  # 7 = 8 - 1
)


def each_example(sums, doubles, multiples):
    """Calls one of the three with each row, from its name on, in the document's order."""
    take = {SUM: sums, DOUBLE: doubles, MULTIPLE: multiples}
    for kind, *row in EXAMPLES:
        take[kind](*row)


def power_and_1(g, p, witness=None, **wrong):
    """x^(2g+1) + 1 modulo p; with a witness in version 2."""
    return curve_record(g, p, [1] + [0] * (2 * g), witness=witness, **wrong)


# name, curve, the number that the curve is answered; 0 is accepted
CURVES = (
    ("p=1", power_and_1(2, 1), 5),
    ("p=2", power_and_1(2, 2), 5),
    ("p=9", power_and_1(2, 9), 5),
    ("p=2147483648", power_and_1(2, 2147483648), 5),
    ("p=3", power_and_1(2, 3), 0),
    ("p=2147483647", power_and_1(2, 2147483647), 0),
    ("x^5+1,p=5", power_and_1(2, 5), 7),
    ("x^7+1,p=7", power_and_1(3, 7), 7),
    ("x^7+6x+1,p=7", curve_record(3, 7, [1, 6, 0, 0, 0, 0, 0]), 0),
    ("A", CURVE_A, 0),
    ("B", CURVE_B, 0),
)

# On A: name, divisor, the number that the divisor is answered
DIVISORS = (
    ("(x,2)", X_2, 11),
    ("coefficient-6-in-v", X_6, 0),
    ("coefficient-6-in-u", X6_3, 0),
    ("coefficient-7-in-v", divisor_record([0], [7]), 10),
    ("coefficient-7-in-u", divisor_record([7], [1]), 10),
)

# On A, of (x, 1): name, scalar, number, the multiple, its counts. (x, 1) has order 5, A5: 2^256 - 1 = 0 and 2^255 = 3 modulo 5.
# A neutral multiple is 19 (W-207).
SCALARS = (
    ("scalar-32-zeros", bytes(32), 19, b"", (0, 0)),
    ("scalar-32-five", (5).to_bytes(32, "big"), 19, b"", (0, 0)),
    ("scalar-32-six", (6).to_bytes(32, "big"), 0, X_1, (3, 1)),  # 8 - 2
    ("scalar-32-ones", b"\xff" * 32, 19, b"", (0, 0)),
    ("scalar-32-ones-but-one", b"\xff" * 31 + b"\xfe", 0, X_6, (256, 1)),  # 2^256 - 2: the 257th digit
    ("scalar-32-top", b"\x80" + bytes(31), 0, XX_6, (255, 0)),
    ("scalar-7", b"\7", 0, XX_1, (3, 1)),
    ("scalar-11", b"\x0b", 0, X_1, (4, 2)),  # 16 - 4 - 1
    ("scalar-255", b"\xff", 19, b"", (0, 0)),
    ("scalar-32-aa", b"\xaa" * 32, 19, b"", (0, 0)),  # (2^257 - 2)/3, the largest of 256 digits
    ("scalar-32-ab", b"\xaa" * 31 + b"\xab", 0, X_1, (256, 128)),  # 2^256 - 2^254 - 2^252 .. - 1
    ("scalar-33-zeros", bytes(33), 12, b"", (0, 0)),
    ("scalar-33-five", (5).to_bytes(33, "big"), 12, b"", (0, 0)),
    ("scalar-33-ones", b"\xff" * 33, 12, b"", (0, 0)),
    ("scalar-empty", b"", 19, b"", (0, 0)),
)

# W-207, "after 12 and before 13": name, curve, divisor, scalar, length of the output, number. (x, 1) has order 5 on A and 7 on B.
KEYS = (
    ("key-A-neutral", CURVE_A, NEUTRAL, b"\3", 40, 19),
    ("key-A-neutral-no-output", CURVE_A, NEUTRAL, b"\3", 0, 19),
    ("key-A-neutral-scalar-33", CURVE_A, NEUTRAL, bytes(33), 40, 12),
    ("key-A-neutral-scalar-33-no-output", CURVE_A, NEUTRAL, bytes(33), 0, 12),
    ("key-A5-no-output", CURVE_A, X_1, b"\5", 0, 19),
    ("key-A5-scalar-33-no-output", CURVE_A, X_1, bytes(32) + b"\5", 0, 12),
    ("key-A-zero", CURVE_A, X_1, b"\0", 40, 19),
    ("key-A-zero-no-output", CURVE_A, X_1, b"\0", 0, 19),
    ("key-A-empty-no-output", CURVE_A, X_1, b"", 0, 19),
    ("key-A4-no-output", CURVE_A, X_1, b"\4", 0, 13),
    ("key-B-neutral", CURVE_B, NEUTRAL, b"\3", 50, 19),
    ("key-B-neutral-no-output", CURVE_B, NEUTRAL, b"\3", 0, 19),
    ("key-B-neutral-scalar-33", CURVE_B, NEUTRAL, bytes(33), 50, 12),
    ("key-B-neutral-scalar-33-no-output", CURVE_B, NEUTRAL, bytes(33), 0, 12),
    ("key-B3-no-output", CURVE_B, X_1, b"\7", 0, 19),
    ("key-B3-scalar-33-no-output", CURVE_B, X_1, bytes(32) + b"\7", 0, 12),
    ("key-B-zero", CURVE_B, X_1, b"\0", 50, 19),
    ("key-B-zero-no-output", CURVE_B, X_1, b"\0", 0, 19),
    ("key-B-empty-no-output", CURVE_B, X_1, b"", 0, 19),
    ("key-B2-no-output", CURVE_B, X_1, b"\4", 0, 13),
)

# Case P on A: the batch, its total with the count, its first repeat
CASE_P = (X_1, X6_3, X_1)
CASE_P_TOTAL, CASE_P_COUNT, CASE_P_REPEAT = XX4X4, 3, (1, 3)

# W-205: name, curve, batch, its first repeat. Equal, opposite, one behind the other, and divisors that are their own opposites
FLIPPED = (
    ("flipped", CURVE_A, (X_1, X_6), (1, 2)),
    ("flipped-back", CURVE_A, (X_6, X_1), (1, 2)),
    ("flipped-then-equal", CURVE_A, (X6_3, X_1, X_6, X6_3), (2, 3)),
    ("equal-then-flipped", CURVE_A, (X_1, X6_3, X6_3, X_6), (2, 3)),
    ("flipped-weight-2", CURVE_A, (XX_1, X_1, XX_6), (1, 3)),
    ("flipped-weight-3", CURVE_B, (B_XXX_1, B_X_10, B_XXX_10), (1, 3)),
    ("u-alike-alone", CURVE_A, (X_1, XX_1, XX6X), (0, 0)),
    ("own-opposite-once", CURVE_A, (X1_0, X_1, NEUTRAL), (0, 0)),
    ("own-opposite-twice", CURVE_A, (X1_0, X_1, X1_0), (1, 3)),
    ("neutral-twice", CURVE_A, (NEUTRAL, X1_0, NEUTRAL), (1, 3)),
)

# W-201: primes, and a base with the primes of p - 1
LARGEST = 2**61 - 1
BY_3, BY_5, BY_7 = (2, (2,)), (2, (2,)), (3, (2, 3))
BY_VERSION_1S_LARGEST = (7, (2, 3, 7, 11, 31, 151, 331))  # 2^31 - 1
BY_LARGEST = (37, (2, 3, 5, 7, 11, 13, 31, 41, 61, 151, 331, 1321))
TWOS, BY_TWOS = 27 * 2**56 + 1, (5, (2, 3))
FIFTEEN, BY_FIFTEEN = 693386350578511591, (14, (2, 3, 5, 7, 11, 13, 17, 19, 23, 29, 31, 37, 41, 43, 53))
LISTS_2_31_LESS_1, BY_2_31_LESS_1 = 46 * (2**31 - 1) + 1, (2, (2, 23, 2**31 - 1))  # the largest prime that may be listed
LISTS_MORE, BY_MORE = 30 * 2147483659 + 1, (2, (2, 3, 5, 2147483659))  # a prime above 2^31 must be
SAFE, BY_SAFE = 2305843009213691579, (2, (2, 1152921504606845789))  # 2q + 1

# W-214: 15 primes in p + 1; the largest prime that may be listed in it; one that is too large; orders of over 100 bits in genus 2, and in 3
MANY, BY_MANY = 693386350578511589, (2, (2, 43597, 330103, 12045067))
LARGEST_LISTED, BY_LARGEST_LISTED = 300647710579, (2, (2, 3, 499, 100416737))
PRIME_OVER = 2**31 + 11
OVER, BY_OVER = 1803886273559, (13, (2, 309583, 2913413))
LONG_2, BY_LONG_2 = 4675407297987523, (5, (2, 3, 31, 1201, 2417, 8659381))
LONG_3, BY_LONG_3 = 61588730771713, (5, (2, 3, 83, 257, 417721))


def with_lists(*rows):
    """The primes, where they aren't bytes already, as a list's."""
    return tuple((*row[:4], row[4] if isinstance(row[4], bytes) else in_4_bytes(row[4]), row[5]) for row in rows)


# W-214: name, curve, divisor, order, primes, number. (x, 1) has order 5 on A and 7 on B, (x + 1, 0) has 2 on both, so their sum has 10 and 14.
# The corners' program runs these.
ORDERS = with_lists(
    ("order-A-5", CURVE_A, X_1, b"\5", (5,), 0),
    ("order-A-10", CURVE_A, X_1, b"\n", (2, 5), 27),
    ("order-A-2", CURVE_A, X_1, b"\2", (2,), 27),
    ("order-A-y=0", CURVE_A, X1_0, b"\2", (2,), 0),
    ("order-A-y=0-4", CURVE_A, X1_0, b"\4", (2,), 27),
    ("order-A-1", CURVE_A, X_1, b"\1", (), 27),
    ("order-A-neutral", CURVE_A, NEUTRAL, b"\1", (), 0),
    ("order-A-neutral-5", CURVE_A, NEUTRAL, b"\5", (5,), 27),
    ("order-A-33-bytes", CURVE_A, X_1, b"\5".rjust(33, b"\0"), (5, 5), 12),
    ("order-B-7", CURVE_B, X_1, b"\7", (7,), 0),
    ("order-B-5", CURVE_B, X_1, b"\5", (5,), 27),
)

# The same, run with the vectors: what breaks an order
BROKEN_ORDERS = with_lists(
    ("10", CURVE_A, XXX_X1, b"\n", (2, 5), 0),
    ("10 in 32 bytes", CURVE_A, XXX_X1, b"\n".rjust(32, b"\0"), (2, 5), 0),
    ("10 in 33 bytes", CURVE_A, XXX_X1, b"\n".rjust(33, b"\0"), (2, 5), 12),
    ("14 on B", CURVE_B, XXX_X1, b"\0\x0e", (2, 7), 0),
    ("10 on B", CURVE_B, XXX_X1, b"\n", (2, 5), 27),
    ("half", CURVE_A, XXX_X1, b"\5", (5,), 27),
    ("a fifth", CURVE_A, XXX_X1, b"\2", (2,), 27),
    ("twice", CURVE_A, XXX_X1, b"\x14", (2, 5), 27),
    ("thrice", CURVE_A, XXX_X1, b"\x1e", (2, 3, 5), 27),
    ("five times", CURVE_A, XXX_X1, b"\x32", (2, 5), 27),
    ("one more", CURVE_A, XXX_X1, b"\x0b", (11,), 27),
    ("1", CURVE_A, XXX_X1, b"\1", (), 27),
    ("1 with a list", CURVE_A, NEUTRAL, b"\1", (2,), 27),
    ("1 in 32 bytes", CURVE_A, NEUTRAL, b"\1".rjust(32, b"\0"), (), 0),
    ("1 on B", CURVE_B, NEUTRAL, b"\1", (), 0),
    ("neutral and 2", CURVE_A, NEUTRAL, b"\2", (2,), 27),
    ("0", CURVE_A, XXX_X1, b"\0", (2, 5), 27),
    ("0 and no list", CURVE_A, XXX_X1, b"\0", (), 27),
    ("empty", CURVE_A, XXX_X1, b"", (2, 5), 27),
    ("empty and no list", CURVE_A, XXX_X1, b"", (), 27),
    ("neutral and 0", CURVE_A, NEUTRAL, b"\0", (), 27),
    ("neutral and empty", CURVE_A, NEUTRAL, b"", (), 27),
    ("33 zeros", CURVE_A, XXX_X1, bytes(33), (), 12),
    ("33 bytes and not whole", CURVE_A, XXX_X1, bytes(33), b"\0\0\0", 12),
    ("no list", CURVE_A, XXX_X1, b"\n", (), 27),
    ("without 2", CURVE_A, XXX_X1, b"\n", (5,), 27),
    ("without 5", CURVE_A, XXX_X1, b"\n", (2,), 27),
    ("with 3", CURVE_A, XXX_X1, b"\n", (2, 3, 5), 27),
    ("with 7", CURVE_A, XXX_X1, b"\n", (2, 5, 7), 27),
    ("falling", CURVE_A, XXX_X1, b"\n", (5, 2), 27),
    ("twice 2", CURVE_A, XXX_X1, b"\n", (2, 2, 5), 27),
    ("twice 5", CURVE_A, XXX_X1, b"\n", (2, 5, 5), 27),
    ("lists 10", CURVE_A, XXX_X1, b"\n", (10,), 27),
    ("lists 10 too", CURVE_A, XXX_X1, b"\n", (2, 5, 10), 27),
    ("lists 0", CURVE_A, XXX_X1, b"\n", (0, 2, 5), 27),
    ("lists 0 alone", CURVE_A, NEUTRAL, b"\1", (0,), 27),
    ("lists 1", CURVE_A, XXX_X1, b"\n", (1, 2, 5), 27),
    ("lists 1 alone", CURVE_A, NEUTRAL, b"\1", (1,), 27),
    ("lists 2^31", CURVE_A, XXX_X1, b"\n", (2, 5, 2**31), 27),
    ("lists a prime over 2^31", CURVE_A, XXX_X1, b"\n", (2, 5, PRIME_OVER), 27),
    ("lists 2^32 - 1", CURVE_A, XXX_X1, b"\n", (2, 5, 2**32 - 1), 27),
    ("lists 46337^2", CURVE_A, XXX_X1, (10 * 46337**2).to_bytes(5, "big"), (2, 5, 46337**2), 27),
    ("a byte over", CURVE_A, XXX_X1, b"\n", b"\0\0\0\2\0\0\0\5\0", 27),
    ("a byte less", CURVE_A, XXX_X1, b"\n", b"\0\0\0\2\0\0\5", 27),
    ("a byte alone", CURVE_A, NEUTRAL, b"\1", b"\0", 27),
    ("32 listed", CURVE_A, XXX_X1, b"\n", (2, 5) * 16, 27),
    ("33 listed", CURVE_A, XXX_X1, b"\n", (2, 5) * 16 + (5,), 27),
)

def splits_at_largest(g):
    """On x^(2g+1) + 1 modulo 2^61 - 1, where 2 is the square of 2^31: the points over 0, 1 and -1 have y = 1, 2^31 and 0."""
    curve = power_and_1(g, LARGEST, BY_LARGEST)
    at_1, at_less_1 = divisor_record([LARGEST - 1], [2**31]), X1_0
    yield "split-v2-genus-%d-1-and-less-1" % g, curve, divisor_record([LARGEST - 1, 0], [2**30, 2**30]), (at_less_1, at_1)
    yield "split-v2-genus-%d-0-and-less-1" % g, curve, XXX_X1, (X_1, X1_0)
    yield "split-v2-genus-%d-double" % g, curve, XX_1, (X_1, X_1)
    if g == 3:
        both = divisor_record([0, LARGEST - 1], [1, 2**31 - 1])
        yield "split-v2-0-and-1-and-less-1", curve, divisor_record([0, LARGEST - 1, 0], [1, 2**30, 2**30 - 1]), (at_less_1, both)
        yield "split-v2-triple", curve, B_XXX_1, (X_1, XX_1)


# W-213: name, curve, divisor, its two parts, or None for 26. On A there are points (0, 1), (1, 3), (5, 5) and (6, 0), on B (0, 1), (5, 2), (6, 3),
# (8, 5) and (10, 0).
SPLITS = (
    ("split-A1", CURVE_A, XX6X, (X_1, X6_3)),
    ("split-A2", CURVE_A, XX_1, (X_1, X_1)),
    ("split-A3", CURVE_A, XX_6, (X_6, X_6)),
    ("split-A9", CURVE_A, XX4X4, (divisor_record([2], [5]), divisor_record([2], [5]))),
    ("split-A-y=0", CURVE_A, XXX_X1, (X_1, X1_0)),
    ("split-A-larger-root-first", CURVE_A, divisor_record([6, 0], [5, 5]), (X1_0, X6_3)),  # roots 6 and 1, so u_0 = 1 and 6
    ("split-A-neutral", CURVE_A, NEUTRAL, None),
    ("split-A-weight-1", CURVE_A, X_1, None),
    ("split-A-no-root", CURVE_A, divisor_record([1, 0], [4, 1]), None),  # (x² + 1, x + 4)
    ("split-B-triple", CURVE_B, B_XXX_1, (X_1, XX_1)),
    ("split-B-triple-opposite", CURVE_B, B_XXX_10, (B_X_10, divisor_record([0, 0], [10, 0]))),
    ("split-B-three", CURVE_B, divisor_record([2, 8, 3], [8, 1, 0]), (divisor_record([3], [5]), divisor_record([8, 0], [8, 1]))),  # 5, 6 and 8
    ("split-B-double-0-and-5", CURVE_B, divisor_record([0, 0, 6], [1, 0, 4]), (divisor_record([6], [2]), XX_1)),
    ("split-B-0-and-double-6", CURVE_B, divisor_record([0, 3, 10], [1, 4, 0]), (divisor_record([5], [3]), divisor_record([0, 5], [1, 4]))),
    ("split-B-0-alone", CURVE_B, divisor_record([0, 9, 0], [1, 2, 6]), (X_1, divisor_record([9, 0], [2, 2]))),  # x·(x² + 9)
    ("split-B-no-root", CURVE_B, divisor_record([1, 5, 0], [3, 0, 6]), None),  # x³ + 5x + 1
    ("split-B-weight-2", CURVE_B, XXX_X1, (X_1, X1_0)),
    ("split-B-weight-2-double", CURVE_B, XX_1, (X_1, X_1)),
    ("split-B-weight-2-no-root", CURVE_B, divisor_record([9, 0], [2, 2]), None),
    ("split-B-weight-1", CURVE_B, B_X_10, None),
    ("split-B-neutral", CURVE_B, NEUTRAL, None),
    *splits_at_largest(2),
    *splits_at_largest(3),
)

# W-209, on A: name, the total, the scan, number, place, and the total as it returns, None where it stays
POLE, OTHER_POLE = 30, 31
FRESH, ONE_TAKEN, TWO_TAKEN = (0,) * 8 + (POLE,), (1, 0, 0, 0, 1, 0, 0, 1, POLE), (2, 0, 6, 0, 1, 2, 0, 2, POLE)
FULL, MALFORMED = (1, 0, 0, 0, 1, 0, 0, 4096, POLE), (1, 0, 0, 0, 2, 0, 0, 4096, POLE)
POLE_SCANS = (
    ("pole-first", FRESH, scan_record(POLE, X_1), 0, 0, ONE_TAKEN),
    ("pole-another-between", ONE_TAKEN, scan_record(OTHER_POLE, X_1), 20, 0, None),
    ("pole-second", ONE_TAKEN, scan_record(POLE, X6_3), 0, 0, TWO_TAKEN),
    ("pole-another-on-fresh", FRESH, scan_record(OTHER_POLE, X_1), 20, 0, None),
    ("pole-0", FRESH[:8] + (0,), scan_record(0, X_1), 0, 0, ONE_TAKEN[:8] + (0,)),
    ("pole-0-given-30", FRESH, scan_record(0, X_1), 20, 0, None),
    ("pole-2^32-1", FRESH[:8] + (2**32 - 1,), scan_record(2**32 - 1, X_1), 0, 0, ONE_TAKEN[:8] + (2**32 - 1,)),
    ("pole-2^31-given-0", FRESH[:8] + (0,), scan_record(2**31, X_1), 20, 0, None),
    ("pole-turned-round", FRESH, b"\x1e\0\0\0" + X_1, 20, 0, None),
    ("pole-no-bytes", FRESH, b"", 8, 1, None),
    ("pole-3-bytes", FRESH, b"\0\0\0", 8, 1, None),
    ("pole-4-bytes", FRESH, scan_record(POLE, b""), 8, 1, None),
    ("pole-4-bytes-of-another", FRESH, scan_record(OTHER_POLE, b""), 20, 0, None),
    ("pole-another-and-weight-3", FRESH, scan_record(OTHER_POLE, b"\3"), 20, 0, None),
    ("pole-another-and-(x,2)", FRESH, scan_record(OTHER_POLE, X_2), 20, 0, None),
    ("pole-and-weight-3", FRESH, scan_record(POLE, b"\3"), 9, 1, None),
    ("pole-and-(x,2)", FRESH, scan_record(POLE, X_2), 11, 1, None),
    ("pole-and-a-byte-more", FRESH, scan_record(POLE, X_1 + b"\0"), 8, 1, None),
    ("pole-without-its-bytes", FRESH, X_1, 20, 0, None),
    ("pole-full", FULL, scan_record(POLE, X_1), 14, 0, None),
    ("pole-full-3-bytes", FULL, b"\0\0\0", 14, 0, None),
    ("pole-full-another", FULL, scan_record(OTHER_POLE, X_1), 14, 0, None),
    ("pole-malformed-3-bytes", MALFORMED, b"\0\0\0", 15, 0, None),
    ("pole-malformed-another", MALFORMED, scan_record(OTHER_POLE, X_1), 15, 0, None),
)

# W-209: name, pole, curve, records of a pole file that is good
POLE_FILES = (
    ("file-A", POLE, CURVE_A, CASE_P),
    ("file-A-no-records", POLE, CURVE_A, ()),
    ("file-A-neutral", 0, CURVE_A, (NEUTRAL, XX_1, NEUTRAL)),
    ("file-B", 2**32 - 1, CURVE_B, (B_XXX_1, NEUTRAL, X_1)),
    ("file-v2-p=7", 2**31, power_and_1(2, 7, BY_7), (X_1, X_6)),
    ("file-v2-2^61-1", 65536, power_and_1(2, LARGEST, BY_LARGEST), (X_1, XX_1)),
    ("file-v2-k=15", 256, power_and_1(3, FIFTEEN, BY_FIFTEEN), (X_1,)),
)
FILE_A = pole_file(POLE, CURVE_A, CASE_P)


def file_on(curve, **wrong):
    return pole_file(POLE, curve, CASE_P, **wrong)


# W-209: name, pole file, number, place. The curve of A ends with byte 63, the count with 65, the records with 82, 99 and 116.
BROKEN_FILES = (
    ("file-empty", b"", 23, 0),
    ("file-8-bytes", FILE_A[:8], 23, 0),
    ("file-8-bytes-mark-HJC", b"HJC" + FILE_A[3:8], 23, 0),
    ("file-9-bytes", FILE_A[:9], 1, 0),
    ("file-9-bytes-mark-HJC", b"HJC" + FILE_A[3:9], 21, 0),
    ("file-9-bytes-version-2", b"HJP\0\2\0\0\0\0", 22, 0),
    ("file-mark-HJC", file_on(CURVE_A, mark=b"HJC"), 21, 0),
    ("file-mark-hjp", file_on(CURVE_A, mark=b"hjp"), 21, 0),
    ("file-mark-and-version", file_on(CURVE_A, mark=b"PJH", version=0), 21, 0),
    ("file-version-0", file_on(CURVE_A, version=0), 22, 0),
    ("file-version-2", file_on(CURVE_A, version=2), 22, 0),
    ("file-version-256", file_on(CURVE_A, version=256), 22, 0),
    ("file-version-257-p=9", file_on(power_and_1(2, 9), version=257), 22, 0),
    ("file-curve-5-bytes", FILE_A[:14], 1, 0),
    ("file-curve-6-bytes", FILE_A[:15], 1, 0),
    ("file-curve-53-bytes", FILE_A[:62], 1, 0),
    ("file-curve-mark", file_on(b"HJP" + CURVE_A[3:]), 2, 0),
    ("file-curve-version-3", file_on(curve_record(2, 7, [1, 0, 0, 0, 0], version=3)), 3, 0),
    ("file-genus-4", file_on(curve_record(4, 7, [1, 0, 0, 0, 0])), 4, 0),
    ("file-genus-3-in-54-bytes", file_on(curve_record(3, 7, [1, 0, 0, 0, 0]))[:78], 1, 0),
    ("file-p=9", file_on(power_and_1(2, 9)), 5, 0),
    ("file-f_0=7", file_on(curve_record(2, 7, [7, 0, 0, 0, 0])), 6, 0),
    ("file-x^5+1,p=5", file_on(power_and_1(2, 5)), 7, 0),
    ("file-v2-before-k", pole_file(POLE, power_and_1(2, 7, BY_7), ())[:71], 1, 0),
    ("file-v2-behind-k", pole_file(POLE, power_and_1(2, 7, BY_7), ())[:72], 1, 0),
    ("file-v2-k=0", file_on(power_and_1(2, 7, (3, ()))), 18, 0),
    ("file-v2-k=16", file_on(power_and_1(2, 7, BY_7, k=16)), 18, 0),
    ("file-v2-base-1", file_on(power_and_1(2, 7, (1, (2, 3)))), 18, 0),
    ("file-no-count", FILE_A[:63], 23, 0),
    ("file-half-a-count", FILE_A[:64], 23, 0),
    ("file-count-4097", file_on(CURVE_A, count=4097), 23, 0),
    ("file-count-65535", file_on(CURVE_A, count=65535), 23, 0),
    ("file-count-4097-p=9", file_on(power_and_1(2, 9), count=4097), 5, 0),
    ("file-count-4097-weight-3", pole_file(POLE, CURVE_A, (b"\3",), count=4097), 23, 0),
    ("file-count-4096", file_on(CURVE_A, count=4096), 23, 0),
    ("file-count-4", file_on(CURVE_A, count=4), 23, 0),
    ("file-count-2", file_on(CURVE_A, count=2), 23, 0),
    ("file-count-0", file_on(CURVE_A, count=0), 23, 0),
    ("file-no-records-count-1", pole_file(POLE, CURVE_A, (), count=1), 23, 0),
    ("file-cut", FILE_A[:-1], 23, 0),
    ("file-cut-behind-a-weight", FILE_A[:100], 23, 0),
    ("file-cut-between-records", FILE_A[:99], 23, 0),
    ("file-a-byte-more", FILE_A + b"\0", 23, 0),
    ("file-a-record-more", FILE_A + X_1, 23, 0),
    ("file-weight-3-cut", pole_file(POLE, CURVE_A, (X_1, b"\3")), 9, 2),
    ("file-weight-3", pole_file(POLE, CURVE_A, (b"\3" + bytes(48), X_1)), 9, 1),
    ("file-coefficient-7", pole_file(POLE, CURVE_A, (X_1, X_1, divisor_record([7], [1]))), 10, 3),
    ("file-(x,2)", pole_file(POLE, CURVE_A, (X_1, X_2, X_1)), 11, 2),
    ("file-(x,2)-and-a-byte-more", pole_file(POLE, CURVE_A, (X_2, X_1)) + b"\0", 11, 1),
    ("file-(x,2)-and-one-missing", pole_file(POLE, CURVE_A, (X_2,), count=2), 11, 1),
    ("file-(x,2)-behind-the-count", pole_file(POLE, CURVE_A, (X_1, X_2), count=1), 23, 0),
)

# W-211: name, curve, divisor, the next one or the number refused. A has 7 divisors of weight 1, from (x, 1) to (x + 6, 4), and 42 of weight 2, from
# (x², 1) to (x² + 6x + 6, 3x + 4). At x = 0 x^(2g+1) + 1 is 1, and where u_0 = 0 is least, so is v = 1.
NEXT = (
    ("next-A-neutral", CURVE_A, NEUTRAL, X_1),
    ("next-A-opposite", CURVE_A, X_1, X_6),
    ("next-A-y=0", CURVE_A, X_6, X1_0),
    ("next-A-after-y=0", CURVE_A, X1_0, divisor_record([2], [2])),
    ("next-A-past-no-points", CURVE_A, divisor_record([2], [5]), X6_3),
    ("next-A-weight-2", CURVE_A, divisor_record([6], [4]), XX_1),
    ("next-A-weight-2-opposite", CURVE_A, XX_1, XX_6),
    ("next-A-weight-2-u1", CURVE_A, XX_6, XXX_X1),
    ("next-A-last-but-one", CURVE_A, divisor_record([6, 6], [3, 4]), divisor_record([6, 6], [4, 3])),
    ("next-A-last", CURVE_A, divisor_record([6, 6], [4, 3]), 24),
    ("next-B-neutral", CURVE_B, NEUTRAL, X_1),
    ("next-B-opposite", CURVE_B, X_1, B_X_10),
    ("next-B-y=0", CURVE_B, B_X_10, X1_0),
    ("next-B-weight-3", CURVE_B, B_XXX_1, B_XXX_10),
    ("next-p=3", power_and_1(2, 3), NEUTRAL, X_1),
    ("next-p=3-v2", power_and_1(2, 3, BY_3), NEUTRAL, X_1),
    ("next-p=13", power_and_1(2, 13), NEUTRAL, X_1),
    ("next-p=13-v2-genus-3", power_and_1(3, 13, (2, (2, 3))), X_1, divisor_record([0], [12])),
    ("next-p=17", power_and_1(2, 17), NEUTRAL, 25),
    ("next-p=17-genus-3", power_and_1(3, 17), X_1, 25),
    ("next-p=17-v2", power_and_1(2, 17, (3, (2,))), NEUTRAL, 25),
    ("next-p=17-no-divisor", power_and_1(2, 17), b"", 25),
    ("next-p=17-weight-4", power_and_1(2, 17), b"\4", 25),
    ("next-p=17-not-valid", power_and_1(2, 17), X_2, 25),
    ("next-p=2^31-1", power_and_1(3, 2147483647), NEUTRAL, 25),
    ("next-p=2^61-1", power_and_1(2, LARGEST, BY_LARGEST), X_1, 25),
)

# Version 2: name, curve, number. Those that have 18 are a fault each, where it can stand alone.
WITNESSED = (
    ("p=3", power_and_1(2, 3, BY_3), 0),
    ("p=3-genus-3", curve_record(3, 3, [1, 2, 0, 0, 0, 0, 0], witness=BY_3), 0),
    ("p=5", curve_record(2, 5, [0, 4, 0, 0, 0], witness=BY_5), 0),
    ("p=5-genus-3", power_and_1(3, 5, BY_5), 0),
    ("p=7", power_and_1(2, 7, BY_7), 0),
    ("p=7-genus-3", curve_record(3, 7, [1, 6, 0, 0, 0, 0, 0], witness=BY_7), 0),
    ("x^5+1,p=5", power_and_1(2, 5, BY_5), 7),
    ("x^7+1,p=7", power_and_1(3, 7, BY_7), 7),
    ("f_4=7,p=7", curve_record(2, 7, [1, 0, 0, 0, 7], witness=BY_7), 6),
    ("p=2^31-1", power_and_1(2, 2**31 - 1, BY_VERSION_1S_LARGEST), 0),
    ("p=2^31-1-genus-3", power_and_1(3, 2**31 - 1, BY_VERSION_1S_LARGEST), 0),
    ("p=2^61-1", power_and_1(2, LARGEST, BY_LARGEST), 0),
    ("p=2^61-1-genus-3", power_and_1(3, LARGEST, BY_LARGEST), 0),
    ("p=27*2^56+1", power_and_1(2, TWOS, BY_TWOS), 0),
    ("p=27*2^56+1-genus-3", power_and_1(3, TWOS, BY_TWOS), 0),
    ("k=15", power_and_1(2, FIFTEEN, BY_FIFTEEN), 0),
    ("k=15-genus-3", power_and_1(3, FIFTEEN, BY_FIFTEEN), 0),
    ("lists-2^31-1", power_and_1(2, LISTS_2_31_LESS_1, BY_2_31_LESS_1), 0),
    ("version-1-p=2^61-1", power_and_1(2, LARGEST), 5),
    ("version-3", power_and_1(2, 7, BY_7, version=3), 3),
    ("version-1-with-a-witness", power_and_1(2, 7, BY_7, version=1), 1),
    ("version-2-without", power_and_1(2, 7, version=2), 1),
    ("base-0", power_and_1(2, 7, (0, (2, 3))), 18),
    ("base-1", power_and_1(2, 7, (1, (2, 3))), 18),
    ("base-p-1", power_and_1(2, 7, (6, (2, 3))), 18),
    ("base-p", power_and_1(2, 7, (7, (2, 3))), 18),
    ("base-p+3", power_and_1(2, 7, (10, (2, 3))), 18),  # 3 modulo p would do
    ("base-2^64-1", power_and_1(2, 7, (2**64 - 1, (2, 3))), 18),
    ("base-of-half-the-order", power_and_1(2, 7, (2, (2, 3))), 18),
    ("base-1-of-3", power_and_1(2, 3, (1, (2,))), 18),
    ("base-of-half-the-order-2^61-1", power_and_1(2, LARGEST, (37 * 37, BY_LARGEST[1])), 18),
    ("without-2", power_and_1(2, 7, (3, (3,))), 18),
    ("without-3", power_and_1(2, 7, (3, (2,))), 18),
    ("without-1321", power_and_1(2, LARGEST, (37, BY_LARGEST[1][:-1])), 18),
    ("lists-6", power_and_1(2, 7, (3, (6,))), 18),
    ("lists-0", power_and_1(2, 7, (3, (0, 2, 3))), 18),
    ("lists-1", power_and_1(2, 7, (3, (1, 2, 3))), 18),
    ("lists-9", power_and_1(2, 19, (2, (2, 9))), 18),
    ("lists-2047", power_and_1(2, 36847, (3, (2, 3, 2047))), 18),  # 36846 = 2·9·2047, 2047 = 23·89
    ("lists-46337^2", power_and_1(2, 103061643313, (5, (2, 3, 46337**2))), 18),  # 48·46337² + 1
    ("lists-4-and-2", power_and_1(2, 5, (2, (2, 4))), 18),
    ("lists-5-of-7", power_and_1(2, 7, (3, (2, 3, 5))), 18),
    ("lists-p", power_and_1(2, 7, (3, (2, 3, 7))), 18),
    ("falling", power_and_1(2, 7, (3, (3, 2))), 18),
    ("falling-at-the-end", power_and_1(2, LARGEST, (37, BY_LARGEST[1][:-2] + (1321, 331))), 18),
    ("twice-2", power_and_1(2, 7, (3, (2, 2, 3))), 18),
    ("twice-3", power_and_1(2, 7, (3, (2, 3, 3))), 18),
    ("lists-a-prime-over-2^31", power_and_1(2, LISTS_MORE, BY_MORE), 18),
    ("p=2q+1", power_and_1(2, SAFE, BY_SAFE), 18),
    ("p=341", power_and_1(2, 341, (2, (2, 5, 17))), 18),
    ("p=561", power_and_1(2, 561, (2, (2, 5, 7))), 18),
    ("p=1105", power_and_1(2, 1105, (2, (2, 3, 23))), 18),
    ("p=9", power_and_1(2, 9, (8, (2,))), 18),
    ("p=2147483649", power_and_1(2, 2147483649, (2, (2,))), 18),  # 2^31 + 1, odd and in range
    ("p=46337^2", power_and_1(2, 46337**2, (2, (2, 3, 181, 7723))), 18),
    ("p=2^61-3", power_and_1(2, LARGEST - 2, (37, BY_LARGEST[1])), 18),
    ("k=0", power_and_1(2, 7, (3, ())), 18),
    ("k=0-p=2^61", power_and_1(2, 2**61, (37, ())), 18),
    ("k=0-two-listed", power_and_1(2, 7, BY_7, k=0), 18),
    ("k=16", power_and_1(2, FIFTEEN, (14, BY_FIFTEEN[1] + (59,))), 18),
    ("k=16-no-list", power_and_1(2, 7, (3, ()), k=16), 18),
    ("k=255", power_and_1(2, 7, BY_7, k=255), 18),
    ("k=255-p=8", power_and_1(2, 8, BY_7, k=255), 18),
    ("k=1-two-listed", power_and_1(2, 7, BY_7, k=1), 1),
    ("k=3-two-listed", power_and_1(2, 7, BY_7, k=3), 1),
    ("k=3-two-listed-p=8", power_and_1(2, 8, BY_7, k=3), 1),
    ("ends-with-k", power_and_1(2, LARGEST, BY_LARGEST)[:63], 1),
    ("ends-before-k", power_and_1(2, LARGEST, BY_LARGEST)[:62], 1),
    ("ends-with-k-genus-3", power_and_1(3, LARGEST, BY_LARGEST)[:79], 1),
    ("ends-before-k-genus-3", power_and_1(3, LARGEST, BY_LARGEST)[:78], 1),
    ("ends-with-k=0", power_and_1(2, 7, (3, ()), k=0)[:63], 18),
    ("p=0", power_and_1(2, 0, BY_7), 5),
    ("p=1", power_and_1(2, 1, BY_7), 5),
    ("p=2", power_and_1(2, 2, (1, (2,))), 5),
    ("p=8", power_and_1(2, 8, BY_7), 5),
    ("p=2^61", power_and_1(2, 2**61, BY_LARGEST), 5),
    ("p=2^61+1", power_and_1(2, 2**61 + 1, BY_LARGEST), 5),
    ("p=2^61+15", power_and_1(2, 2**61 + 15, BY_LARGEST), 5),  # the next prime
    ("p=2^64-1", power_and_1(2, 2**64 - 1, BY_LARGEST), 5),
)
