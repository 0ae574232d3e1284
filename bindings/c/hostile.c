/* Puts good, cut, extended, damaged and random bytes to every call: hostile [ROUNDS [SEED]], 25,000 and 1 where left out.
 *
 * Prints how often each number was answered, the calls, and a digest of every answer and every output byte: the same on every machine that answers the
 * same. Each input ends where its memory ends, so that a byte read behind it ends the program; with no bytes half of the pointers are NULL.
 * Exit 1 where bytes outside an output change, where a refused call writes, where calls that must agree differ, or where a number is never answered. */
#define _DEFAULT_SOURCE
#include "yubisorade.h"

#include <inttypes.h>
#include <stdio.h>
#include <stdlib.h>
#include <string.h>
#include <sys/mman.h>
#include <unistd.h>

enum { PAINT = 0xA5, FRONT = 64, CURVES = 6, KEPT = 12, BATCH_ROOM = 4100 * YUBI_DIVISOR_ROOM, ROOM = YUBI_POLE_FILE_ROOM + 4096, NUMBERS = 28 };

/* What is lent at the same time, each in memory of its own. */
enum { CURVE, A, B, SCALAR, PRIMES, BATCH, SCAN, FILE_READ, OUT, ROLES };

typedef struct {
    uint8_t bytes[YUBI_CURVE_ROOM];
    size_t length;
} Record;

typedef struct {
    uint8_t *at;
    size_t length;
} Lent;

static uint8_t *end_of[ROLES];
static Record curves[CURVES], divisors[CURVES][KEPT], order, order_primes;
static YubiRunning totals[CURVES];
static uint64_t state, digest = 14695981039346656037u, calls, answered[NUMBERS];

static void wrong(const char *what)
{
    printf("hostile: %s, after %" PRIu64 " calls\n", what, calls);
    exit(1);
}

/* Marsaglia's xorshift. */
static uint64_t any(void)
{
    state ^= state << 13;
    state ^= state >> 7;
    state ^= state << 17;
    return state;
}

static size_t below(size_t n)
{
    return (size_t)(any() >> 11) % n;
}

/* FNV-1a, a number as eight bytes from the lowest on. */
static void eat(uint64_t number)
{
    for (int i = 0; i < 8; i++) {
        digest = (digest ^ (number >> 8 * i & 255)) * 1099511628211u;
    }
}

static void eat_answer(uint64_t number, uint64_t place, uint64_t length)
{
    calls++;
    if (number >= NUMBERS || number == 16 || number == 17)
        wrong("a number that no call has");
    answered[number]++;
    eat(number);
    eat(place);
    eat(length);
}

static void eat_total(YubiRunning t)
{
    const uint64_t numbers[] = {t.weight, t.u0, t.u1, t.u2, t.v0, t.v1, t.v2, t.count, t.pole};
    for (size_t i = 0; i < sizeof numbers / sizeof numbers[0]; i++)
        eat(numbers[i]);
}

static int same_total(YubiRunning a, YubiRunning b)
{
    return a.weight == b.weight && a.u0 == b.u0 && a.u1 == b.u1 && a.u2 == b.u2 && a.v0 == b.v0 && a.v1 == b.v1 && a.v2 == b.v2
        && a.count == b.count && a.pole == b.pole;
}

/* ---- what is lent */

static void make_rooms(void)
{
    size_t page = (size_t)sysconf(_SC_PAGESIZE), room = (ROOM + FRONT + page - 1) / page * page;
    for (int role = 0; role < ROLES; role++) {
        uint8_t *area = mmap(NULL, room + page, PROT_READ | PROT_WRITE, MAP_PRIVATE | MAP_ANONYMOUS, -1, 0);
        if (area == MAP_FAILED || mprotect(area + room, page, PROT_NONE) != 0) {
            perror("hostile");
            exit(1);
        }
        end_of[role] = area + room;
    }
}

/* That many bytes, copied to where their memory ends. */
static Lent lend(int role, const void *bytes, size_t length)
{
    Lent l = {end_of[role] - length, length};
    if (length > 0)
        memcpy(l.at, bytes, length);
    else if (any() % 2 == 0)
        l.at = NULL;
    return l;
}

/* A place in that many bytes, every second time among the first 16. */
static size_t place_in(size_t length)
{
    size_t near = any() % 2 == 0;
    return below(near && length > 16 ? 16 : length);
}

/* The bytes as they are, or cut, extended, damaged in a byte, or others. */
static Lent damaged(int role, const uint8_t *bytes, size_t length, size_t chance)
{
    uint8_t *to = end_of[role] - FRONT - length;
    size_t what = below(chance), most = length < 100 ? 100 : length, k;
    if (length > 0)
        memcpy(to, bytes, length);
    switch (what) {
    case 0:
        length = below(length + 1);
        break;
    case 1:
        k = below(20);
        for (size_t i = 0; i < k; i++)
            to[length + i] = (uint8_t)any();
        length += k;
        break;
    case 2:
        if (length > 0) {
            k = place_in(length);
            to[k] = (uint8_t)any();
        }
        break;
    case 3:
        if (length > 0) {
            k = place_in(length);
            to[k] ^= (uint8_t)(1 << below(8));
        }
        break;
    case 4:
        length = below(most);
        to = end_of[role] - FRONT - length;
        for (size_t i = 0; i < length; i++)
            to[i] = (uint8_t)any();
        break;
    default:
        break;
    }
    /* Moved, not copied: the two overlap. */
    Lent l = {end_of[role] - length, length};
    memmove(l.at, to, length);
    if (length == 0 && any() % 2 == 0)
        l.at = NULL;
    return l;
}

static Lent output(size_t length)
{
    Lent l = {end_of[OUT] - length, length};
    memset(l.at - FRONT, PAINT, FRONT + length);
    if (length == 0 && any() % 2 == 0)
        l.at = NULL;
    return l;
}

/* Takes an output's bytes into the digest: behind what was written, and before it, they are as they were. */
static void eat_output(Lent out, uint64_t number, uint64_t length)
{
    const uint8_t *at = end_of[OUT] - out.length;
    if (length > out.length || (number != 0 && length != 0))
        wrong("a length that can't be");
    for (size_t i = 0; i < FRONT; i++)
        if (at[i - FRONT] != PAINT)
            wrong("a byte before the output was written");
    for (size_t i = (size_t)length; i < out.length; i++)
        if (at[i] != PAINT)
            wrong("a byte behind the result was written");
    for (size_t i = 0; i < (size_t)length; i++)
        eat(at[i]);
}

/* ---- good records */

static void put_numbers(Record *r, const uint64_t *numbers, size_t count)
{
    for (size_t i = 0; i < count; i++)
        for (int shift = 56; shift >= 0; shift -= 8)
            r->bytes[r->length++] = (uint8_t)(numbers[i] >> shift);
}

/* y^2 = x^(2g+1) + .. + 4, which (0, 2) is on: of version 2, with a base and the primes of p - 1, where there are any. */
static void make_curve(Record *r, uint8_t genus, uint64_t p, uint64_t base, const uint64_t *primes, uint8_t count)
{
    const uint8_t head[] = {'H', 'J', 'C', 0, count > 0 ? 2 : 1, genus};
    const uint64_t f[] = {p, 4 % p, 3, 5, 2, 1, 6, 4};
    memcpy(r->bytes, head, sizeof head);
    r->length = sizeof head;
    put_numbers(r, f, 2 * (size_t)genus + 2);
    if (count > 0) {
        put_numbers(r, &base, 1);
        r->bytes[r->length++] = count;
        put_numbers(r, primes, count);
    }
}

/* The order of the first curve's first divisor, counted out, and the primes of it. */
static void make_order(void)
{
    const Record *curve = &curves[0], *first = &divisors[0][0];
    Record sum = *first;
    uint8_t n = 1, left, q;
    while (sum.bytes[0] != 0) {
        Record next = {{0}, 0};
        next.length = (size_t)yubi_add(curve->bytes, curve->length, sum.bytes, sum.length, first->bytes, first->length, next.bytes, sizeof next.bytes).length;
        sum = next;
        n++;
    }
    order.bytes[order.length++] = left = n;
    for (q = 2; left > 1; q++) {
        if (left % q != 0)
            continue;
        order_primes.length += 4;
        order_primes.bytes[order_primes.length - 1] = q;
        while (left % q == 0)
            left = (uint8_t)(left / q);
    }
}

/* The last divisor of the first curve's census, in place of one that was kept. */
static void make_last(void)
{
    Record *last = &divisors[0][KEPT - 2], next = {{0}, 1};
    do {
        *last = next;
        next.length = (size_t)yubi_next_divisor(curves[0].bytes, curves[0].length, last->bytes, last->length, next.bytes, sizeof next.bytes).length;
    } while (next.length > 0);
}

static void make_records(void)
{
    static const uint64_t of_61[] = {2, 3, 5, 7, 11, 13, 31, 41, 61, 151, 331, 1321}, of_31[] = {2, 3, 7, 11, 31, 151, 331};
    const uint64_t m61 = 2305843009213693951u, m31 = 2147483647u, point[] = {0, 2};
    make_curve(&curves[0], 2, 7, 0, NULL, 0);
    make_curve(&curves[1], 3, 13, 0, NULL, 0);
    make_curve(&curves[2], 2, m61, 37, of_61, 12);
    make_curve(&curves[3], 3, m61, 37, of_61, 12);
    make_curve(&curves[4], 2, m31, 7, of_31, 7);
    make_curve(&curves[5], 3, m31, 0, NULL, 0);
    for (int c = 0; c < CURVES; c++) {
        Record first = {{1}, 1};
        put_numbers(&first, point, 2);
        divisors[c][0] = first;
        totals[c] = yubi_fresh_total((uint32_t)c);
        for (int i = 1; i < KEPT - 1; i++) {
            Record *sum = &divisors[c][i], *last = &divisors[c][i - 1];
            YubiAnswer a = yubi_add(curves[c].bytes, curves[c].length, last->bytes, last->length, first.bytes, first.length, sum->bytes,
                                    sizeof sum->bytes);
            if (a.number != 0)
                wrong("a good record was refused");
            sum->length = (size_t)a.length;
        }
        divisors[c][KEPT - 1].bytes[0] = 0; /* the neutral one */
        divisors[c][KEPT - 1].length = 1;
    }
    make_order();
    make_last();
}

static const Record *kept(size_t c)
{
    size_t other = below(20), k = below(KEPT);
    return &divisors[other < CURVES ? other : c][k];
}

/* Records one behind the other: a few, and now and then about as many as a batch may have. */
static Lent make_batch(size_t c)
{
    static uint8_t bytes[BATCH_ROOM];
    size_t length = 0, count = below(300) == 0 ? 4090 + below(10) : below(24);
    for (size_t i = 0; i < count; i++) {
        const Record *d = &divisors[c][below(KEPT)];
        memcpy(bytes + length, d->bytes, d->length);
        length += d->length;
    }
    return damaged(BATCH, bytes, length, 16);
}

/* ---- the calls */

#define LENT(l) (l).at, (l).length
#define EAT(call) do { YubiAnswer a_ = call; eat_answer(a_.number, a_.place, a_.length); } while (0)
#define EAT_OUT(call) do { YubiAnswer a_ = call; eat_answer(a_.number, a_.place, a_.length); eat_output(out, a_.number, a_.length); } while (0)

static void records(Lent curve, Lent a, Lent b)
{
    Lent out;
    EAT(yubi_check_curve(LENT(curve)));
    EAT(yubi_check_divisor(LENT(curve), LENT(a)));
    out = output(below(YUBI_CURVE_ROOM + 10));
    EAT_OUT(yubi_rewrite_curve(LENT(curve), LENT(out)));
    out = output(below(YUBI_DIVISOR_ROOM + 10));
    EAT_OUT(yubi_rewrite_divisor(LENT(curve), LENT(a), LENT(out)));
    out = output(below(YUBI_DIVISOR_ROOM + 10));
    EAT_OUT(yubi_add(LENT(curve), LENT(a), LENT(b), LENT(out)));
    out = output(below(YUBI_DIVISOR_ROOM + 10));
    EAT_OUT(yubi_double(LENT(curve), LENT(a), LENT(out)));
    out = output(below(YUBI_DIVISOR_ROOM + 10));
    EAT_OUT(yubi_opposite(LENT(curve), LENT(a), LENT(out)));
    out = output(below(YUBI_SPLIT_ROOM + 10));
    EAT_OUT(yubi_split(LENT(curve), LENT(a), LENT(out)));
    out = output(below(YUBI_DIVISOR_ROOM + 10));
    EAT_OUT(yubi_next_divisor(LENT(curve), LENT(a), LENT(out)));
}

static void multiples(Lent curve, Lent a)
{
    uint8_t bytes[YUBI_SCALAR_ROOM + 2], list[4 * YUBI_MOST_PRIMES + 8] = {0}, written[YUBI_DIVISOR_ROOM + 10];
    static const uint8_t primes[] = {2, 3, 5, 7, 11, 13, 31, 41};
    size_t length = below(sizeof bytes + 1), room = below(sizeof written), count = below(sizeof primes);
    for (size_t i = 0; i < length; i++)
        bytes[i] = (uint8_t)any();
    for (size_t i = 0; i < count; i++)
        list[4 * i + 3] = primes[i];
    if (below(8) == 0) {
        bytes[0] = order.bytes[0];
        length = 1;
        count = order_primes.length / 4;
        memcpy(list, order_primes.bytes, order_primes.length);
    }
    Lent scalar = lend(SCALAR, bytes, length), out = output(room);
    YubiMultiple m = yubi_multiply(LENT(curve), LENT(a), LENT(scalar), LENT(out));
    eat_answer(m.number, m.place, m.length);
    eat(m.doublings);
    eat(m.additions);
    eat_output(out, m.number, m.length);
    memcpy(written, end_of[OUT] - room, room);
    out = output(room);
    YubiMultiple f = yubi_multiply_inversion_free(LENT(curve), LENT(a), LENT(scalar), LENT(out));
    eat_answer(f.number, f.place, f.length);
    eat_output(out, f.number, f.length);
    if (f.number != m.number || f.place != m.place || f.length != m.length || f.doublings != m.doublings || f.additions != m.additions
        || memcmp(written, end_of[OUT] - room, room) != 0)
        wrong("the two multiply calls differ");
    Lent listed = damaged(PRIMES, list, 4 * count, 8);
    EAT(yubi_check_order(LENT(curve), LENT(a), LENT(scalar), LENT(listed)));
}

static void batches(size_t c, Lent curve)
{
    static uint8_t bytes[YUBI_POLE_FILE_ROOM];
    Lent batch = make_batch(c), out = output(below(YUBI_DIVISOR_ROOM + 10));
    YubiTotal t = yubi_total_batch(LENT(curve), LENT(batch), LENT(out));
    eat_answer(t.number, t.place, t.length);
    eat(t.count);
    eat_output(out, t.number, t.length);
    YubiRepeat r = yubi_first_repeat(LENT(curve), LENT(batch));
    eat_answer(r.number, r.place, r.length);
    eat(r.first);
    eat(r.second);
    size_t shorter = below(4) == 0 ? below(batch.length + 1) : 0;
    out = output(batch.length + curve.length + 11 - shorter);
    YubiAnswer w = yubi_write_pole_file((uint32_t)any(), LENT(curve), LENT(batch), LENT(out));
    eat_answer(w.number, w.place, w.length);
    eat_output(out, w.number, w.length);
    memcpy(bytes, end_of[OUT] - out.length, (size_t)w.length);
    Lent file = damaged(FILE_READ, bytes, (size_t)w.length, 8);
    out = output(below(file.length + 40));
    YubiPole p = yubi_read_pole_file(LENT(file), LENT(out));
    eat_answer(p.number, p.place, p.length);
    eat(p.pole);
    eat_output(out, p.number, p.length);
}

/* A total as it came from the last scan, or with a number changed. */
static YubiRunning total_of(size_t c)
{
    YubiRunning t = totals[c];
    switch (below(24)) {
    case 0: t.weight = below(6); break;
    case 1: t.u0 = any(); break;
    case 2: t.u1 = below(9); break;
    case 3: t.v2 = below(3); break;
    case 4: t.count = 4095 + below(3); break;
    case 5: t = yubi_fresh_total((uint32_t)c); break;
    default: break;
    }
    return t;
}

static void scans(size_t c, Lent curve)
{
    uint8_t bytes[4 + YUBI_CURVE_ROOM] = {0, 0, 0, (uint8_t)(below(12) == 0 ? CURVES : c)};
    const Record *d = kept(c);
    memcpy(bytes + 4, d->bytes, d->length);
    Lent read = damaged(SCAN, bytes, 4 + d->length, 12);
    YubiRunning given = total_of(c), lent = given;
    YubiScanned s = yubi_scan(given, LENT(curve), LENT(read));
    eat_answer(s.number, s.place, s.length);
    eat_total(s.total);
    YubiAnswer a = yubi_scan_lent(&lent, LENT(curve), LENT(read));
    eat_answer(a.number, a.place, a.length);
    if (a.number != s.number || a.place != s.place || a.length != s.length || !same_total(lent, s.total))
        wrong("the scan by value and the lent one differ");
    if (s.number != 0 && !same_total(lent, given))
        wrong("a refused scan changed its total");
    if (s.number == 0)
        totals[c] = lent;
}

int main(int argc, char **argv)
{
    unsigned long rounds = argc > 1 ? strtoul(argv[1], NULL, 10) : 25000;
    int missing = 0;
    state = 88172645463325252u + (argc > 2 ? strtoul(argv[2], NULL, 10) : 1);
    make_rooms();
    make_records();
    for (unsigned long i = 0; i < rounds; i++) {
        size_t c = below(CURVES);
        Lent curve = damaged(CURVE, curves[c].bytes, curves[c].length, 12);
        const Record *first = kept(c), *second = kept(c);
        Lent a = damaged(A, first->bytes, first->length, 16), b = damaged(B, second->bytes, second->length, 16);
        records(curve, a, b);
        multiples(curve, a);
        batches(c, curve);
        scans(c, curve);
        YubiRunning fresh = yubi_fresh_total((uint32_t)any());
        calls++;
        eat_total(fresh);
    }
    printf("answered");
    for (size_t n = 0; n < NUMBERS; n++)
        if (n != 16 && n != 17) {
            printf(" %zu:%" PRIu64, n, answered[n]);
            missing |= answered[n] == 0;
        }
    printf("\n%" PRIu64 " calls, digest %016" PRIx64 "\n", calls, digest);
    if (missing)
        wrong("a number that was never answered");
    return 0;
}
