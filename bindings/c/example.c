/*
 * Case P through the C calls: the curve y^2 = x^5 + 1 modulo 7 and the records (x, 1), (x + 6, 3), (x, 1).
 * Prints the three lines that the tablet shows, from one batch; then takes the same records one by one, as a crew at a
 * pole does, and checks that the running total is the batch total. Exit 1 on a refusal or a difference.
 */
#include "yubisorade.h"

#include <inttypes.h>
#include <stdio.h>
#include <string.h>

static const uint8_t curve[54] = {
    'H', 'J', 'C', 0, 1, 2,
    0, 0, 0, 0, 0, 0, 0, 7, /* p */
    0, 0, 0, 0, 0, 0, 0, 1, /* f_0 */
    /* f_1 to f_4 are 0 */
};

enum { RECORD = 17, RECORDS = 3, POLE = 7 };

static const uint8_t batch[RECORDS * RECORD] = {
    1, 0, 0, 0, 0, 0, 0, 0, 0, 0, 0, 0, 0, 0, 0, 0, 1, /* u_0 = 0, v_0 = 1 */
    1, 0, 0, 0, 0, 0, 0, 0, 6, 0, 0, 0, 0, 0, 0, 0, 3, /* u_0 = 6, v_0 = 3 */
    1, 0, 0, 0, 0, 0, 0, 0, 0, 0, 0, 0, 0, 0, 0, 0, 1, /* u_0 = 0, v_0 = 1 */
};

static int refused(uint64_t number, uint64_t place)
{
    printf("refused %" PRIu64 " %" PRIu64 "\n", number, place);
    return 1;
}

/* The weight as two digits, then each 8-byte number as a space and 16 digits. */
static void print_total(const uint8_t *record, uint64_t length)
{
    printf("total %02x", record[0]);
    for (uint64_t i = 1; i < length; i++) {
        if (i % 8 == 1)
            putchar(' ');
        printf("%02x", record[i]);
    }
    putchar('\n');
}

static uint64_t number_at(const uint8_t *bytes)
{
    uint64_t number = 0;
    for (int i = 0; i < 8; i++)
        number = number << 8 | bytes[i];
    return number;
}

int main(void)
{
    uint8_t out[YUBI_DIVISOR_ROOM];

    YubiTotal total = yubi_total_batch(curve, sizeof curve, batch, sizeof batch, out, sizeof out);
    if (total.number != 0)
        return refused(total.number, total.place);
    YubiRepeat repeat = yubi_first_repeat(curve, sizeof curve, batch, sizeof batch);
    if (repeat.number != 0)
        return refused(repeat.number, repeat.place);

    printf("count %" PRIu64 "\n", total.count);
    if (repeat.second == 0)
        printf("repeat none\n");
    else
        printf("repeat %" PRIu64 " %" PRIu64 "\n", repeat.first, repeat.second);
    print_total(out, total.length);

    /* One by one, as scans for pole 7, each with the pole's number before its record. */
    YubiRunning t = yubi_fresh_total(POLE);
    for (int i = 0; i < RECORDS; i++) {
        uint8_t scan[4 + RECORD] = {0, 0, 0, POLE};
        memcpy(scan + 4, batch + i * RECORD, RECORD);
        YubiAnswer scanned = yubi_scan_lent(&t, curve, sizeof curve, scan, sizeof scan);
        if (scanned.number != 0)
            return refused(scanned.number, scanned.place);
    }
    if (t.count != total.count || t.pole != POLE || t.weight != 2 || out[0] != 2 || t.u0 != number_at(out + 1)
        || t.u1 != number_at(out + 9) || t.v0 != number_at(out + 17) || t.v1 != number_at(out + 25) || t.u2 != 0
        || t.v2 != 0) {
        fprintf(stderr, "the running total differs from the batch total\n");
        return 1;
    }
    return 0;
}
