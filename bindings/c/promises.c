/*
 * What include/yubisorade.h promises beside the numbers' causes, tried: NULL with length 0, which calls give 18, the place of a scan, a batch's 14, that bytes
 * tell whether two records are the same meter, that a curve record of version 2 is the quicker one. Exit 1 where a promise isn't kept.
 */
#include "yubisorade.h"

#include <inttypes.h>
#include <stdio.h>
#include <string.h>
#include <time.h>

static int tried, broken;

static void held(int holds, const char *what, uint64_t number, uint64_t place)
{
    tried++;
    if (!holds) {
        broken++;
        printf("NOT KEPT: %s (answered %" PRIu64 ", place %" PRIu64 ")\n", what, number, place);
    }
}

typedef struct Bytes {
    uint8_t at[YUBI_CURVE_ROOM];
    size_t length;
} Bytes;

static Bytes begun(const char *mark, uint8_t version, uint8_t g)
{
    Bytes b;
    memset(&b, 0, sizeof b);
    memcpy(b.at, mark, 3);
    b.at[4] = version;
    b.at[5] = g;
    b.length = 6;
    return b;
}

static void put(Bytes *b, uint64_t number)
{
    for (int shift = 56; shift >= 0; shift -= 8)
        b->at[b->length++] = (uint8_t)(number >> shift & 0xff);
}

/* y^2 = x^(2g + 1) + 1 modulo p, in version 1. */
static Bytes curve_of(uint8_t g, uint64_t p)
{
    Bytes b = begun("HJC", 1, g);
    put(&b, p);
    put(&b, 1);
    for (int i = 1; i <= 2 * g; i++)
        put(&b, 0);
    return b;
}

/* The same in version 2, with a witness. */
static Bytes witnessed(uint8_t g, uint64_t p, uint64_t base, const uint64_t *primes, uint8_t k)
{
    Bytes b = curve_of(g, p);
    b.at[4] = 2;
    put(&b, base);
    b.at[b.length++] = k;
    for (int i = 0; i < k; i++)
        put(&b, primes[i]);
    return b;
}

/* The divisor (x - a, b), as u_0 = -a and v_0 = b modulo p. */
static Bytes point(uint64_t u0, uint64_t v0)
{
    Bytes b;
    memset(&b, 0, sizeof b);
    b.at[b.length++] = 1;
    put(&b, u0);
    put(&b, v0);
    return b;
}

#define OF(bytes) (bytes).at, (bytes).length

/* One byte argument of a call after the other has length 0: `nothing` is NULL, then not. What it must be is documents 01 and 02's. */
static void without(const uint8_t *nothing, uint8_t *nowhere)
{
    const Bytes c = curve_of(2, 7), d = point(0, 1);
    const uint8_t three[1] = {3}, one[1] = {1}, neutral[1] = {0}, scan[5] = {0, 0, 0, 7, 0};
    uint8_t out[512];
    YubiRunning fresh = yubi_fresh_total(7), lent = fresh;
    YubiScanned s;
    YubiTotal t;
    YubiRepeat r;
    YubiPole p;
#define IS(call, wanted, where)                                                                                                             \
    do {                                                                                                                                    \
        YubiAnswer a = call;                                                                                                                \
        held(a.number == (wanted) && a.place == (where) && (a.number == YUBI_DONE || a.length == 0), #call, a.number, a.place);             \
    } while (0)
#define MULTIPLE_IS(call, wanted, where)                                                                                                    \
    do {                                                                                                                                    \
        YubiMultiple a = call;                                                                                                              \
        held(a.number == (wanted) && a.place == (where), #call, a.number, a.place);                                                         \
    } while (0)
    IS(yubi_check_curve(nothing, 0), YUBI_CURVE_LENGTH, 0);
    IS(yubi_check_divisor(nothing, 0, OF(d)), YUBI_CURVE_LENGTH, 0);
    IS(yubi_check_divisor(OF(c), nothing, 0), YUBI_DIVISOR_LENGTH, 1);
    IS(yubi_rewrite_curve(nothing, 0, out, sizeof out), YUBI_CURVE_LENGTH, 0);
    IS(yubi_rewrite_curve(OF(c), nowhere, 0), YUBI_OUTPUT_LENGTH, 0);
    IS(yubi_rewrite_divisor(nothing, 0, OF(d), out, sizeof out), YUBI_CURVE_LENGTH, 0);
    IS(yubi_rewrite_divisor(OF(c), nothing, 0, out, sizeof out), YUBI_DIVISOR_LENGTH, 1);
    IS(yubi_rewrite_divisor(OF(c), OF(d), nowhere, 0), YUBI_OUTPUT_LENGTH, 0);
    IS(yubi_add(nothing, 0, OF(d), OF(d), out, sizeof out), YUBI_CURVE_LENGTH, 0);
    IS(yubi_add(OF(c), nothing, 0, OF(d), out, sizeof out), YUBI_DIVISOR_LENGTH, 1);
    IS(yubi_add(OF(c), OF(d), nothing, 0, out, sizeof out), YUBI_DIVISOR_LENGTH, 2);
    IS(yubi_add(OF(c), OF(d), OF(d), nowhere, 0), YUBI_OUTPUT_LENGTH, 0);
    IS(yubi_double(nothing, 0, OF(d), out, sizeof out), YUBI_CURVE_LENGTH, 0);
    IS(yubi_double(OF(c), nothing, 0, out, sizeof out), YUBI_DIVISOR_LENGTH, 1);
    IS(yubi_double(OF(c), OF(d), nowhere, 0), YUBI_OUTPUT_LENGTH, 0);
    IS(yubi_opposite(nothing, 0, OF(d), out, sizeof out), YUBI_CURVE_LENGTH, 0);
    IS(yubi_opposite(OF(c), nothing, 0, out, sizeof out), YUBI_DIVISOR_LENGTH, 1);
    IS(yubi_opposite(OF(c), OF(d), nowhere, 0), YUBI_OUTPUT_LENGTH, 0);
    IS(yubi_split(nothing, 0, OF(d), out, sizeof out), YUBI_CURVE_LENGTH, 0);
    IS(yubi_split(OF(c), nothing, 0, out, sizeof out), YUBI_DIVISOR_LENGTH, 1);
    IS(yubi_split(OF(c), OF(d), nowhere, 0), YUBI_NO_ROOT, 0);
    MULTIPLE_IS(yubi_multiply(nothing, 0, OF(d), three, 1, out, sizeof out), YUBI_CURVE_LENGTH, 0);
    MULTIPLE_IS(yubi_multiply(OF(c), nothing, 0, three, 1, out, sizeof out), YUBI_DIVISOR_LENGTH, 1);
    MULTIPLE_IS(yubi_multiply(OF(c), OF(d), nothing, 0, out, sizeof out), YUBI_EMPTY_KEY, 0);
    MULTIPLE_IS(yubi_multiply(OF(c), OF(d), three, 1, nowhere, 0), YUBI_OUTPUT_LENGTH, 0);
    MULTIPLE_IS(yubi_multiply_inversion_free(nothing, 0, OF(d), three, 1, out, sizeof out), YUBI_CURVE_LENGTH, 0);
    MULTIPLE_IS(yubi_multiply_inversion_free(OF(c), nothing, 0, three, 1, out, sizeof out), YUBI_DIVISOR_LENGTH, 1);
    MULTIPLE_IS(yubi_multiply_inversion_free(OF(c), OF(d), nothing, 0, out, sizeof out), YUBI_EMPTY_KEY, 0);
    MULTIPLE_IS(yubi_multiply_inversion_free(OF(c), OF(d), three, 1, nowhere, 0), YUBI_OUTPUT_LENGTH, 0);
    IS(yubi_check_order(nothing, 0, neutral, 1, one, 1, nothing, 0), YUBI_CURVE_LENGTH, 0);
    IS(yubi_check_order(OF(c), nothing, 0, one, 1, nothing, 0), YUBI_DIVISOR_LENGTH, 1);
    IS(yubi_check_order(OF(c), neutral, 1, nothing, 0, nothing, 0), YUBI_NOT_THE_ORDER, 0);
    IS(yubi_check_order(OF(c), neutral, 1, one, 1, nothing, 0), YUBI_DONE, 0);
    IS(yubi_next_divisor(nothing, 0, neutral, 1, out, sizeof out), YUBI_CURVE_LENGTH, 0);
    IS(yubi_next_divisor(OF(c), nothing, 0, out, sizeof out), YUBI_DIVISOR_LENGTH, 1);
    IS(yubi_next_divisor(OF(c), neutral, 1, nowhere, 0), YUBI_OUTPUT_LENGTH, 0);
    t = yubi_total_batch(nothing, 0, OF(d), out, sizeof out);
    held(t.number == YUBI_CURVE_LENGTH, "yubi_total_batch without a curve", t.number, t.place);
    memset(out, 9, sizeof out);
    t = yubi_total_batch(OF(c), nothing, 0, out, sizeof out);
    held(t.number == YUBI_DONE && t.count == 0 && t.length == 1 && out[0] == 0 && out[1] == 9, "an empty batch", t.number, t.place);
    t = yubi_total_batch(OF(c), nothing, 0, nowhere, 0);
    held(t.number == YUBI_OUTPUT_LENGTH, "an empty batch, no output", t.number, t.place);
    r = yubi_first_repeat(nothing, 0, OF(d));
    held(r.number == YUBI_CURVE_LENGTH, "yubi_first_repeat without a curve", r.number, r.place);
    r = yubi_first_repeat(OF(c), nothing, 0);
    held(r.number == YUBI_DONE && r.first == 0 && r.second == 0, "no repeat in an empty batch", r.number, r.place);
    s = yubi_scan(fresh, nothing, 0, scan, sizeof scan);
    held(s.number == YUBI_CURVE_LENGTH, "yubi_scan without a curve", s.number, s.place);
    s = yubi_scan(fresh, OF(c), nothing, 0);
    held(s.number == YUBI_DIVISOR_LENGTH && s.place == 1, "an empty scan", s.number, s.place);
    IS(yubi_scan_lent(&lent, nothing, 0, scan, sizeof scan), YUBI_CURVE_LENGTH, 0);
    IS(yubi_scan_lent(&lent, OF(c), nothing, 0), YUBI_DIVISOR_LENGTH, 1);
    IS(yubi_write_pole_file(7, nothing, 0, OF(d), out, sizeof out), YUBI_CURVE_LENGTH, 0);
    IS(yubi_write_pole_file(7, OF(c), OF(d), nowhere, 0), YUBI_OUTPUT_LENGTH, 0);
    IS(yubi_write_pole_file(7, OF(c), nothing, 0, out, sizeof out), YUBI_DONE, 0);
    p = yubi_read_pole_file(out, 9 + 54 + 2, nowhere, 0);
    held(p.number == YUBI_OUTPUT_LENGTH, "a pole file read, no output", p.number, p.place);
    p = yubi_read_pole_file(nothing, 0, out, sizeof out);
    held(p.number == YUBI_POLE_FILE_LENGTH && p.pole == 0, "an empty pole file", p.number, p.place);
}

/* Every call but yubi_fresh_total gives 18 for a witness that shows nothing: the base 2 has order 3 modulo 7. */
static void witnesses(void)
{
    static const uint64_t primes[2] = {2, 3};
    const Bytes good = witnessed(2, 7, 3, primes, 2), bad = witnessed(2, 7, 2, primes, 2), d = point(0, 1);
    const uint8_t three[1] = {3}, five[1] = {5}, list[4] = {0, 0, 0, 5};
    uint8_t scan[4 + 17] = {0, 0, 0, 7}, out[512], file[512];
    YubiRunning lent = yubi_fresh_total(7);
    memcpy(scan + 4, d.at, d.length);
    YubiAnswer w = yubi_write_pole_file(7, OF(good), OF(d), file, sizeof file);
    held(w.number == YUBI_DONE, "a good witness", w.number, w.place);
    memcpy(file + 9, bad.at, bad.length);
    const uint64_t numbers[] = {
        yubi_check_curve(OF(bad)).number,
        yubi_check_divisor(OF(bad), OF(d)).number,
        yubi_rewrite_curve(OF(bad), out, sizeof out).number,
        yubi_rewrite_divisor(OF(bad), OF(d), out, sizeof out).number,
        yubi_add(OF(bad), OF(d), OF(d), out, sizeof out).number,
        yubi_double(OF(bad), OF(d), out, sizeof out).number,
        yubi_opposite(OF(bad), OF(d), out, sizeof out).number,
        yubi_split(OF(bad), OF(d), out, sizeof out).number,
        yubi_multiply(OF(bad), OF(d), three, 1, out, sizeof out).number,
        yubi_multiply_inversion_free(OF(bad), OF(d), three, 1, out, sizeof out).number,
        yubi_check_order(OF(bad), OF(d), five, 1, list, sizeof list).number,
        yubi_next_divisor(OF(bad), OF(d), out, sizeof out).number,
        yubi_total_batch(OF(bad), OF(d), out, sizeof out).number,
        yubi_first_repeat(OF(bad), OF(d)).number,
        yubi_scan(lent, OF(bad), scan, sizeof scan).number,
        yubi_scan_lent(&lent, OF(bad), scan, sizeof scan).number,
        yubi_write_pole_file(7, OF(bad), OF(d), out, sizeof out).number,
        yubi_read_pole_file(file, w.length, out, sizeof out).number,
    };
    for (size_t i = 0; i < sizeof numbers / sizeof numbers[0]; i++)
        held(numbers[i] == YUBI_WITNESS, "each call gives 18", numbers[i], i);
}

/* The place of a scan that is refused with 8 to 11 is 1, also where the total has taken others; of 20 and 14 it is 0. */
static void scans(void)
{
    static const struct {
        uint64_t number, place;
        size_t length;
        uint8_t bytes[21];
    } bad[] = {
        {YUBI_DIVISOR_LENGTH, 1, 3, {0, 0, 0}},
        {YUBI_DIVISOR_LENGTH, 1, 4, {0, 0, 0, 7}},
        {YUBI_DIVISOR_LENGTH, 1, 20, {0, 0, 0, 7, 1}},
        {YUBI_WEIGHT, 1, 21, {0, 0, 0, 7, 3}},
        {YUBI_DIVISOR_COEFFICIENT, 1, 21, {0, 0, 0, 7, 1, 0, 0, 0, 0, 0, 0, 0, 7, 0, 0, 0, 0, 0, 0, 0, 1}},
        {YUBI_NOT_ON_CURVE, 1, 21, {0, 0, 0, 7, 1, 0, 0, 0, 0, 0, 0, 0, 0, 0, 0, 0, 0, 0, 0, 0, 2}},
        {YUBI_OTHER_POLE, 0, 21, {0, 0, 0, 8, 1, 0, 0, 0, 0, 0, 0, 0, 0, 0, 0, 0, 0, 0, 0, 0, 2}},
    };
    const Bytes c = curve_of(2, 7), d = point(0, 1);
    uint8_t scan[21] = {0, 0, 0, 7};
    YubiRunning total = yubi_fresh_total(7);
    memcpy(scan + 4, d.at, d.length);
    for (int k = 0; k < 3; k++) {
        for (size_t i = 0; i < sizeof bad / sizeof bad[0]; i++) {
            YubiRunning lent = total;
            YubiAnswer a = yubi_scan_lent(&lent, OF(c), bad[i].bytes, bad[i].length);
            YubiScanned s = yubi_scan(total, OF(c), bad[i].bytes, bad[i].length);
            held(a.number == bad[i].number && a.place == bad[i].place, "a scan lent", a.number, a.place);
            held(s.number == bad[i].number && s.place == bad[i].place && s.length == 0, "a scan", s.number, s.place);
            held(lent.count == total.count && s.total.count == total.count && s.total.weight == total.weight, "which leaves the total", s.number, s.place);
        }
        YubiAnswer a = yubi_scan_lent(&total, OF(c), scan, sizeof scan);
        held(a.number == YUBI_DONE, "a good scan", a.number, a.place);
    }
}

/* 4096 neutral records are a batch; one byte more is 14, whatever it is; a fault before it comes first. */
static void batches(void)
{
    static uint8_t batch[YUBI_MOST_RECORDS + 1];
    const Bytes c = curve_of(2, 7);
    uint8_t out[YUBI_DIVISOR_ROOM];
    YubiTotal t = yubi_total_batch(OF(c), batch, YUBI_MOST_RECORDS, out, sizeof out);
    held(t.number == YUBI_DONE && t.count == YUBI_MOST_RECORDS, "a full batch", t.number, t.place);
    for (unsigned last = 0; last < 256; last += 17) {
        batch[YUBI_MOST_RECORDS] = (uint8_t)last;
        t = yubi_total_batch(OF(c), batch, sizeof batch, out, sizeof out);
        held(t.number == YUBI_FULL && t.place == 0, "one more", t.number, t.place);
        YubiRepeat r = yubi_first_repeat(OF(c), batch, sizeof batch);
        held(r.number == YUBI_FULL && r.place == 0, "one more", r.number, r.place);
    }
    batch[YUBI_MOST_RECORDS - 1] = 9;
    t = yubi_total_batch(OF(c), batch, sizeof batch, out, sizeof out);
    held(t.number == YUBI_WEIGHT && t.place == YUBI_MOST_RECORDS, "a fault before it", t.number, t.place);
}

/* All pairs of the divisors of a training curve: bytes say what the search says. */
static void meters(uint8_t g, uint64_t p)
{
    static uint8_t record[256][YUBI_DIVISOR_ROOM], opposite[256][YUBI_DIVISOR_ROOM];
    static size_t length[256];
    const Bytes c = curve_of(g, p);
    size_t n = 1, same = 0;
    length[0] = 1;
    for (;;) {
        YubiAnswer a = yubi_next_divisor(OF(c), record[n - 1], length[n - 1], record[n], sizeof record[n]);
        if (a.number == YUBI_LAST_DIVISOR || n == 255)
            break;
        held(a.number == YUBI_DONE, "a census", a.number, a.place);
        length[n++] = a.length;
    }
    for (size_t i = 0; i < n; i++) {
        YubiAnswer a = yubi_opposite(OF(c), record[i], length[i], opposite[i], sizeof opposite[i]);
        held(a.number == YUBI_DONE && a.length == length[i], "an opposite", a.number, a.place);
    }
    for (size_t i = 0; i < n; i++) {
        for (size_t j = 0; j < n; j++) {
            uint8_t batch[2 * YUBI_DIVISOR_ROOM];
            memcpy(batch, record[i], length[i]);
            memcpy(batch + length[i], record[j], length[j]);
            YubiRepeat r = yubi_first_repeat(OF(c), batch, length[i] + length[j]);
            int equal = length[i] == length[j] && (memcmp(record[i], record[j], length[i]) == 0 || memcmp(opposite[i], record[j], length[i]) == 0);
            held(r.number == YUBI_DONE && (r.second == 2) == equal, "bytes say which meter it is", r.number, r.place);
            same += equal != 0;
        }
    }
    printf("genus %d, p = %d: of %zu pairs of divisors %zu are the same meter\n", g, (int)p, n * n, same);
}

/* Each work of a tablet's main loop, on the divisors (x, 1) and (x, 1). */
typedef enum Work { CHECK, SUM, SCAN } Work;

static uint64_t worked(Work work, const Bytes *c, const Bytes *d)
{
    uint8_t out[YUBI_DIVISOR_ROOM], scan[4 + 17] = {0};
    switch (work) {
    case CHECK:
        return yubi_check_divisor(OF(*c), OF(*d)).number;
    case SUM:
        return yubi_add(OF(*c), OF(*d), OF(*d), out, sizeof out).number;
    default:
        memcpy(scan + 4, d->at, d->length);
        return yubi_scan(yubi_fresh_total(0), OF(*c), scan, sizeof scan).number;
    }
}

/* The least time that a work takes, of some rounds. */
static double least(Work work, const Bytes *c, const Bytes *d)
{
    double best = 1e9;
    for (int round = 0; round < 50; round++) {
        clock_t start = clock();
        for (int i = 0; i < 20; i++) {
            uint64_t number = worked(work, c, d);
            if (number != YUBI_DONE)
                held(0, "a work", number, 0);
        }
        double took = (double)(clock() - start);
        best = took < best ? took : best;
    }
    return best;
}

/* At p = 2^31 - 1, in version 1 and in version 2: 7 is a primitive root, and p - 1 has the primes 2, 3, 7, 11, 31, 151 and 331. */
static void versions(uint8_t g)
{
    static const uint64_t primes[] = {2, 3, 7, 11, 31, 151, 331};
    static const char *const names[] = {"check", "sum", "scan"};
    const Bytes one = curve_of(g, 2147483647), two = witnessed(g, 2147483647, 7, primes, sizeof primes / sizeof primes[0]), d = point(0, 1);
    for (int work = CHECK; work <= SCAN; work++) {
        double ratio = least((Work)work, &one, &d) / least((Work)work, &two, &d);
        printf("genus %d, p = 2^31 - 1: a %s takes %.1f times as long with a record of version 1\n", g, names[work], ratio);
        /* The header speaks of instructions, which tools/bench.sh counts; under an emulator a time is another thing. */
        held(ratio > 2, "version 2 is over twice as quick", 0, 0);
    }
}

int main(void)
{
    uint8_t byte = 9;
    without(NULL, NULL);
    without(&byte, &byte);
    held(byte == 9, "no byte of a length 0 is written", byte, 0);
    witnesses();
    scans();
    batches();
    meters(2, 3);
    meters(2, 7);
    meters(3, 5);
    versions(2);
    versions(3);
    printf("%d tried, %d not kept\n", tried, broken);
    return broken != 0;
}
