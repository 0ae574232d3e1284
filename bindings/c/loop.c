/*
 * A tablet's loop through the C calls:
 *
 *     loop CURVE SCANS POLE SCALAR [ORDER PRIME...]
 *
 * CURVE is a file with a curve record; SCANS is the walk along a street, each scan behind its length in 2 bytes. A scan for POLE is
 * taken into the pole's running total, and the key of its meter is printed, the SCALAR-fold of the meter's divisor. Where an order is
 * given, with its primes, the divisor must be shown to have it. A scan that is refused leaves the total as it was, and the crew
 * reads what to do. A meter that comes again, as it was or with its sign turned, ends the walk and isn't added.
 *
 * Exit 0 where the walk came to its end, 1 where the curve was refused, the list is over or a meter came again, 2 on bad use.
 */
#include "yubisorade.h"
#include "yubisorade_words.h"

#include <inttypes.h>
#include <stdio.h>
#include <stdlib.h>
#include <string.h>

enum { POLE_BYTES = 4, PRIME_BYTES = 4, SCAN_ROOM = POLE_BYTES + YUBI_DIVISOR_ROOM };

/* What the loop is given beside the scans, and what it keeps: the total, and each meter's record in the one form that it has. */
typedef struct Tablet {
    uint8_t curve[YUBI_CURVE_ROOM + 1]; /* one byte more, so that a file that is too long shows */
    size_t curve_length;
    uint8_t scalar[8];
    uint8_t order[8];
    uint8_t primes[YUBI_MOST_PRIMES * PRIME_BYTES];
    size_t primes_length;
    int has_order;
    YubiRunning total;
    uint8_t meters[YUBI_MOST_RECORDS][YUBI_DIVISOR_ROOM];
} Tablet;

static Tablet tablet;

/* The bytes of a number, big-endian. */
static void put(uint8_t *to, size_t length, uint64_t number)
{
    for (size_t i = length; i > 0; i--) {
        to[i - 1] = (uint8_t)(number & 0xff);
        number >>= 8;
    }
}

/* A divisor record says its own length. */
static size_t record_length(const uint8_t *record)
{
    return 1 + 16 * (size_t)record[0];
}

/* The record of a running total's divisor. */
static void put_total(const YubiRunning *t, uint8_t record[YUBI_DIVISOR_ROOM])
{
    const uint64_t u[3] = {t->u0, t->u1, t->u2}, v[3] = {t->v0, t->v1, t->v2};
    size_t w = (size_t)t->weight;
    record[0] = (uint8_t)w;
    for (size_t i = 0; i < w; i++) {
        put(record + 1 + 8 * i, 8, u[i]);
        put(record + 1 + 8 * (w + i), 8, v[i]);
    }
}

/* The weight as two digits, then each 8-byte number as a space and 16 digits. */
static void print_record(const uint8_t *record)
{
    printf("%02x", record[0]);
    for (size_t i = 1; i < record_length(record); i++)
        printf(i % 8 == 1 ? " %02x" : "%02x", record[i]);
}

static void print_refusal(uint64_t number)
{
    printf("refused %" PRIu64 ", %s; what to do: %s\n", number, yubi_cause(number), yubi_advice(number));
}

/* Which meter of the list a good record is, from 1: one with its bytes, or with those of its opposite. 0 where it is a new one. */
static uint64_t known_as(const uint8_t *record, size_t length)
{
    uint8_t opposite[YUBI_DIVISOR_ROOM];
    YubiAnswer a = yubi_opposite(tablet.curve, tablet.curve_length, record, length, opposite, sizeof opposite);
    if (a.number != YUBI_DONE) {
        print_refusal(a.number); /* never of a record that was taken */
        exit(1);
    }
    for (size_t i = 0; i < tablet.total.count; i++) {
        const uint8_t *meter = tablet.meters[i];
        if (memcmp(meter, record, length) == 0 || memcmp(meter, opposite, length) == 0)
            return i + 1;
    }
    return 0;
}

/* A new meter's key and, where one is given, its order. */
static void commission(const uint8_t *record, size_t length)
{
    uint8_t key[YUBI_DIVISOR_ROOM];
    YubiMultiple m = yubi_multiply(tablet.curve, tablet.curve_length, record, length, tablet.scalar, sizeof tablet.scalar, key, sizeof key);
    printf("  key ");
    if (m.number == YUBI_DONE) {
        print_record(key);
        printf("\n");
    } else {
        print_refusal(m.number); /* YUBI_EMPTY_KEY */
    }
    if (!tablet.has_order)
        return;
    YubiAnswer a = yubi_check_order(tablet.curve, tablet.curve_length, record, length, tablet.order, sizeof tablet.order, tablet.primes,
                                    tablet.primes_length);
    printf("  order ");
    if (a.number == YUBI_DONE)
        printf("shown\n");
    else
        print_refusal(a.number); /* YUBI_NOT_THE_ORDER */
}

/* Takes one scan. Answers whether the walk goes on. */
static int take(const uint8_t *scan, size_t length)
{
    YubiScanned s = yubi_scan(tablet.total, tablet.curve, tablet.curve_length, scan, length);
    switch (s.number) {
    case YUBI_DONE:
        break;
    case YUBI_FULL:          /* the list is over */
    case YUBI_RUNNING_TOTAL: /* never: the total is the loop's own */
        print_refusal(s.number);
        return 0;
    default: /* YUBI_OTHER_POLE, or a fault of the record: the next scan may be a good one */
        print_refusal(s.number);
        return 1;
    }
    const uint8_t *record = scan + POLE_BYTES;
    uint64_t known = known_as(record, length - POLE_BYTES);
    if (known != 0) {
        printf("meter %" PRIu64 " again\n", known);
        return 0;
    }
    memcpy(tablet.meters[tablet.total.count], record, length - POLE_BYTES);
    tablet.total = s.total;
    printf("meter %" PRIu64 "\n", tablet.total.count);
    commission(record, length - POLE_BYTES);
    return 1;
}

/* The walk, scan by scan. Answers whether it came to its end. */
static int walk(FILE *scans)
{
    uint8_t head[2], scan[SCAN_ROOM];
    for (unsigned long n = 1; fread(head, 1, sizeof head, scans) == sizeof head; n++) {
        size_t length = (size_t)head[0] << 8 | head[1];
        if (length > sizeof scan || fread(scan, 1, length, scans) != length) {
            printf("scan %lu: no scan has so many bytes, or the file is cut\n", n);
            return 0;
        }
        printf("scan %lu: ", n);
        if (!take(scan, length))
            return 0;
    }
    return 1;
}

/* An argument that is a decimal number, at most so large. */
static uint64_t number_of(const char *word, uint64_t most)
{
    char *end;
    unsigned long long number = strtoull(word, &end, 10);
    if (*word < '0' || *word > '9' || *end != 0 || number > most) {
        fprintf(stderr, "loop: %s isn't a number up to %" PRIu64 "\n", word, most);
        exit(2);
    }
    return number;
}

static FILE *opened(const char *name)
{
    FILE *file = fopen(name, "rb");
    if (file == NULL) {
        perror(name);
        exit(2);
    }
    return file;
}

int main(int argc, char **argv)
{
    if (argc < 5 || argc > 6 + YUBI_MOST_PRIMES) {
        fprintf(stderr, "usage: loop CURVE SCANS POLE SCALAR [ORDER PRIME...]\n");
        return 2;
    }
    FILE *file = opened(argv[1]);
    tablet.curve_length = fread(tablet.curve, 1, sizeof tablet.curve, file);
    fclose(file);
    tablet.total = yubi_fresh_total((uint32_t)number_of(argv[3], UINT32_MAX));
    put(tablet.scalar, sizeof tablet.scalar, number_of(argv[4], UINT64_MAX));
    tablet.has_order = argc > 5;
    if (tablet.has_order)
        put(tablet.order, sizeof tablet.order, number_of(argv[5], UINT64_MAX));
    for (int i = 6; i < argc; i++) {
        put(tablet.primes + tablet.primes_length, PRIME_BYTES, number_of(argv[i], UINT32_MAX));
        tablet.primes_length += PRIME_BYTES;
    }

    YubiAnswer a = yubi_check_curve(tablet.curve, tablet.curve_length);
    if (a.number != YUBI_DONE) {
        printf("curve: ");
        print_refusal(a.number);
        return 1;
    }
    FILE *scans = opened(argv[2]);
    int ended = walk(scans);
    fclose(scans);

    uint8_t record[YUBI_DIVISOR_ROOM];
    put_total(&tablet.total, record);
    printf("pole %" PRIu32 "\ncount %" PRIu64 "\ntotal ", tablet.total.pole, tablet.total.count);
    print_record(record);
    printf("\n");
    return ended ? 0 : 1;
}
