"""streets.py: curves, meters and lists for the program's scenarios and its demo. Records are made by records.py and sums by
reference.py; nothing here is drawn at random."""
import reference
from records import curve_record, divisor_record

LARGEST = 2147483647
OF_VERSION_2 = 2**61 - 1
WITNESS = 37, (2, 3, 5, 7, 11, 13, 31, 41, 61, 151, 331, 1321)  # that it is prime

CURVE_A = curve_record(2, 7, [1, 0, 0, 0, 0])  # y² = x^5 + 1
CURVE_B = curve_record(3, 11, [1, 0, 0, 0, 0, 0, 0])  # y² = x^7 + 1
CURVE_L = curve_record(2, LARGEST, [1, 0, 0, 0, 0])  # y² = x^5 + 1, the largest prime
CURVE_M = curve_record(3, LARGEST, [5, 3, 0, 2, 0, 0, 1])  # y² = x^7 + x^6 + 2x³ + 3x + 5
CURVE_W = curve_record(2, OF_VERSION_2, [7, 0, 1, 0, 4], witness=WITNESS)  # y² = x^5 + 4x^4 + x² + 7
CURVE_V = curve_record(3, OF_VERSION_2, [5, 3, 0, 2, 0, 0, 1], witness=WITNESS)  # y² = x^7 + x^6 + 2x³ + 3x + 5
NEUTRAL = b"\x00"
X_1, X_6, X_2 = (divisor_record([0], [v]) for v in (1, 6, 2))  # (x, 1), (x, 6) and (x, 2)
X6_3 = divisor_record([6], [3])  # (x + 6, 3)
X1_0 = divisor_record([1], [0])  # (x + 1, 0)
CASE_P = X_1 + X6_3 + X_1


def points(curve, start=1):
    """Records of weight 1 on a curve of the largest prime of its version, by growing x: -(x - x0) is x + (p - x0)."""
    _, p, f, _ = reference.read_curve(curve)
    x = start
    while True:
        square = sum(c * pow(x, i, p) for i, c in enumerate(f)) % p
        y = pow(square, (p + 1) // 4, p)  # p is 3 modulo 4
        if y * y % p == square:
            yield divisor_record([(-x) % p], [y])
        x += 1


def flipped(curve, record):
    """What older firmware reports after a restart: the opposite divisor."""
    on = reference.read_curve(curve)
    return reference.write_divisor(reference.opposite_of(on, reference.read_divisor(on, record, 1)))


def meters(curve, count, weight, start=1):
    """As many different records, each the sum of `weight` points."""
    on = reference.read_curve(curve)
    stream = points(curve, start)
    records = []
    while len(records) < count:
        total = reference.NEUTRAL
        for _ in range(weight):
            total = reference.sum_of(on, total, reference.read_divisor(on, next(stream), 1))
        records.append(reference.write_divisor(total))
    assert len(set(records)) == count
    return records
