/* Reads files of frames and prints the line of each, through the C calls: vectors FILE..
 *
 * tools/README.md has the form of both. The files of crates/test_vectors, the vectors and then the corners, make its file stdout, which programs under
 * tools/ made that share no code with the library. A multiple goes through both multiply calls, a scan through yubi_scan and yubi_scan_lent, and from a
 * total of zeros but for its pole begins at yubi_fresh_total: they must agree. The bytes behind an output must keep what they held.
 * Exit 1 where they don't, or where a frame is cut or no frame at all. */
#include "yubisorade.h"

#include <inttypes.h>
#include <stdio.h>
#include <stdlib.h>
#include <string.h>

enum { GUARD = 0xA5, HEAD = 21, MOST_FILE = 65536, MOST_OUTPUT = 512, BEHIND = 64 };

typedef struct {
    const uint8_t *at;
    size_t length;
} Bytes;

typedef struct {
    unsigned operation;
    Bytes curve, first, second, last; /* the last is a running total, an order's primes or a pole */
    size_t output;
} Frame;

static uint8_t out[MOST_OUTPUT + BEHIND];

static void wrong(const char *what)
{
    fflush(stdout);
    fprintf(stderr, "vectors: %s\n", what);
    exit(1);
}

static uint32_t number4(const uint8_t *at)
{
    return (uint32_t)at[0] << 24 | (uint32_t)at[1] << 16 | (uint32_t)at[2] << 8 | at[3];
}

static uint64_t number8(const uint8_t *at)
{
    return (uint64_t)number4(at) << 32 | number4(at + 4);
}

/* The bytes at the front of what is left, which loses them. */
static Bytes taken(Bytes *left, size_t length)
{
    Bytes part = {left->at, length};
    if (length > left->length)
        wrong("a cut frame");
    left->at += length;
    left->length -= length;
    return part;
}

static Frame next_frame(Bytes *left)
{
    Bytes head = taken(left, HEAD);
    Frame f;
    f.operation = head.at[0];
    f.output = number4(head.at + 13);
    f.curve = taken(left, number4(head.at + 1));
    f.first = taken(left, number4(head.at + 5));
    f.second = taken(left, number4(head.at + 9));
    f.last = taken(left, number4(head.at + 17));
    if (f.output > MOST_OUTPUT)
        wrong("an output that is too long");
    return f;
}

static void print_number(uint64_t number)
{
    printf(" %" PRIu64, number);
}

static void print_answer(uint64_t number, uint64_t place, uint64_t length)
{
    printf("%" PRIu64 " %" PRIu64 " %" PRIu64, number, place, length);
}

static void print_output(size_t length)
{
    putchar(' ');
    if (length == 0)
        putchar('-');
    for (size_t i = 0; i < length; i++)
        printf("%02x", out[i]);
}

static void print_total(YubiRunning t)
{
    const uint64_t numbers[] = {t.weight, t.u0, t.u1, t.u2, t.v0, t.v1, t.v2, t.count, t.pole};
    for (size_t i = 0; i < sizeof numbers / sizeof numbers[0]; i++)
        print_number(numbers[i]);
}

static int same_total(YubiRunning a, YubiRunning b)
{
    return a.weight == b.weight && a.u0 == b.u0 && a.u1 == b.u1 && a.u2 == b.u2 && a.v0 == b.v0 && a.v1 == b.v1 && a.v2 == b.v2
        && a.count == b.count && a.pole == b.pole;
}

#define CURVE f.curve.at, f.curve.length
#define FIRST f.first.at, f.first.length
#define SECOND f.second.at, f.second.length
#define LAST f.last.at, f.last.length
#define OUT out, f.output

static void multiply(Frame f)
{
    uint8_t written[sizeof out];
    YubiMultiple free = yubi_multiply_inversion_free(CURVE, FIRST, SECOND, OUT);
    memcpy(written, out, sizeof out);
    memset(out, GUARD, sizeof out);
    YubiMultiple m = yubi_multiply(CURVE, FIRST, SECOND, OUT);
    if (m.number != free.number || m.place != free.place || m.length != free.length || m.doublings != free.doublings
        || m.additions != free.additions || memcmp(written, out, sizeof out) != 0)
        wrong("the two multiply calls differ");
    print_answer(m.number, m.place, m.length);
    print_number(m.doublings);
    print_number(m.additions);
    print_output(f.output);
}

static void scan(Frame f)
{
    uint64_t n[8], fresh = 1;
    if (f.last.length != 68)
        wrong("a running total that isn't 68 bytes");
    for (size_t i = 0; i < 8; i++) {
        n[i] = number8(f.last.at + 8 * i);
        fresh = fresh && n[i] == 0;
    }
    YubiRunning given = {n[0], n[1], n[2], n[3], n[4], n[5], n[6], n[7], number4(f.last.at + 64)};
    if (fresh && !same_total(given, yubi_fresh_total(given.pole)))
        wrong("a fresh total isn't zeros and its pole");
    YubiRunning lent = given;
    YubiScanned s = yubi_scan(given, CURVE, FIRST);
    YubiAnswer a = yubi_scan_lent(&lent, CURVE, FIRST);
    if (s.number != a.number || s.place != a.place || s.length != a.length || !same_total(s.total, lent))
        wrong("the scan by value and the lent one differ");
    print_answer(s.number, s.place, s.length);
    print_total(s.total);
}

static void total_batch(Frame f)
{
    YubiTotal t = yubi_total_batch(CURVE, FIRST, OUT);
    print_answer(t.number, t.place, t.length);
    print_number(t.count);
    print_output(f.output);
}

static void first_repeat(Frame f)
{
    YubiRepeat r = yubi_first_repeat(CURVE, FIRST);
    print_answer(r.number, r.place, r.length);
    print_number(r.first);
    print_number(r.second);
}

static void read_pole_file(Frame f)
{
    YubiPole p = yubi_read_pole_file(FIRST, OUT);
    print_answer(p.number, p.place, p.length);
    print_number(p.pole);
    print_output(f.output);
}

static YubiAnswer write_pole_file(Frame f)
{
    if (f.last.length != 4)
        wrong("a pole that isn't 4 bytes");
    return yubi_write_pole_file(number4(f.last.at), CURVE, FIRST, OUT);
}

/* The calls that answer number, place and length alone. */
static void answered(Frame f)
{
    YubiAnswer a;
    switch (f.operation) {
    case 1: a = yubi_check_curve(CURVE); break;
    case 2: a = yubi_check_divisor(CURVE, FIRST); break;
    case 3: a = yubi_rewrite_curve(CURVE, OUT); break;
    case 4: a = yubi_rewrite_divisor(CURVE, FIRST, OUT); break;
    case 5: a = yubi_add(CURVE, FIRST, SECOND, OUT); break;
    case 6: a = yubi_double(CURVE, FIRST, OUT); break;
    case 7: a = yubi_opposite(CURVE, FIRST, OUT); break;
    case 15: a = yubi_check_order(CURVE, FIRST, SECOND, LAST); break;
    case 16: a = yubi_split(CURVE, FIRST, OUT); break;
    case 17: a = yubi_next_divisor(CURVE, FIRST, OUT); break;
    case 18: a = write_pole_file(f); break;
    default: wrong("no such operation"); return;
    }
    print_answer(a.number, a.place, a.length);
    if (f.operation != 1 && f.operation != 2 && f.operation != 15)
        print_output(f.output);
}

static void print_line(Frame f)
{
    if (f.operation == 0) { /* a label: the next frame's line goes on behind it */
        fwrite(f.curve.at, 1, f.curve.length, stdout);
        putchar(' ');
        return;
    }
    memset(out, GUARD, sizeof out);
    switch (f.operation) {
    case 8: multiply(f); break;
    case 9: total_batch(f); break;
    case 10: first_repeat(f); break;
    case 11: scan(f); break;
    case 19: read_pole_file(f); break;
    default: answered(f); break;
    }
    putchar('\n');
    for (size_t i = f.output; i < sizeof out; i++)
        if (out[i] != GUARD)
            wrong("a byte behind the output was written");
}

int main(int argc, char **argv)
{
    static uint8_t data[MOST_FILE + 1];
    for (int k = 1; k < argc; k++) {
        FILE *file = fopen(argv[k], "rb");
        if (file == NULL) {
            perror(argv[k]);
            return 1;
        }
        Bytes left = {data, fread(data, 1, sizeof data, file)};
        fclose(file);
        if (left.length > MOST_FILE)
            wrong("a file that is too long");
        while (left.length > 0)
            print_line(next_frame(&left));
    }
    return 0;
}
