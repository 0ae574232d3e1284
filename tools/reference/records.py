"""records.py: curve and divisor records, scans, pole files and lists of primes from their parts, also wrong ones: nothing is checked here."""


def in_8_bytes(numbers):
    return b"".join(n.to_bytes(8, "big") for n in numbers)


def in_4_bytes(numbers):
    return b"".join(n.to_bytes(4, "big") for n in numbers)


def curve_record(g, p, f, mark=b"HJC", version=None, witness=None, k=None):
    """f: f_0 up to f_2g, without the leading 1. A witness, a base and primes, makes it version 2 where nothing else is said; k is how many
    primes it says that there are."""
    version = version if version is not None else 1 if witness is None else 2
    head = mark + version.to_bytes(2, "big") + bytes([g])
    if witness is None:
        return head + in_8_bytes([p, *f])
    a, primes = witness
    return head + in_8_bytes([p, *f, a]) + bytes([len(primes) if k is None else k]) + in_8_bytes(primes)


def divisor_record(u, v, w=None):
    """u: u_0 up to u_(w-1), without the leading 1; v: v_0 up to v_(w-1)."""
    return bytes([len(u) if w is None else w]) + in_8_bytes([*u, *v])


def scan_record(pole, record):
    return in_4_bytes([pole]) + record


def pole_file(pole, curve, records, mark=b"HJP", version=1, count=None):
    """records: a list; count is how many it says that there are."""
    head = mark + version.to_bytes(2, "big") + in_4_bytes([pole])
    return head + curve + (len(records) if count is None else count).to_bytes(2, "big") + b"".join(records)
