/* Runs every call on the smallest stack that the header promises to be enough, YUBI_STACK_ROOM or YUBI_REPEAT_STACK_ROOM bytes: genus 3 at p = 2^61 - 1
 * and 4,096 records where it can be, and small curves, where special pairs take other ways. Prints how many bytes of it each call touched, those
 * of the function that calls it among them. A call that wants more meets the guard page below the stack, and the program ends there.
 * Exit 1 where a call answers something else than it should. */
#define _GNU_SOURCE
#include "yubisorade.h"

#include <stdio.h>
#include <stdlib.h>
#include <string.h>
#include <sys/mman.h>
#include <ucontext.h>

enum { PAGE = 4096, RECORDS = YUBI_MOST_RECORDS, PAINT = 0xa5 };

static const uint64_t P = 2305843009213693951u;

typedef struct {
    uint8_t bytes[YUBI_CURVE_ROOM];
    size_t length;
} Record;

/* The curves: genus 3 and genus 2 at 2^61 - 1, genus 3 at 13 for the census, genus 2 at 7 where (x, 1) has order 5. */
static Record wide3, wide2, training, small2;

/* (0, 2) and (1, 3) on the first two, their sum; the batch of 4,096 multiples of a divisor of weight 3, its last record that divisor
 * again in the second. */
static const uint64_t zero_two[2] = {0, 2}, one_three[2] = {1, 3}, zero_one[2] = {0, 1};
static Record point, other, both, unit;
static uint8_t batch[RECORDS * YUBI_DIVISOR_ROOM], repeated[RECORDS * YUBI_DIVISOR_ROOM], file[YUBI_POLE_FILE_ROOM], out[YUBI_POLE_FILE_ROOM];
static size_t batch_length, repeated_length, file_length;

/* 4,096 records of the first divisors of the training curve. */
static uint8_t small_batch[RECORDS * YUBI_DIVISOR_ROOM];
static size_t small_length;
static uint8_t scalar[YUBI_SCALAR_ROOM];

static void put(Record *r, const void *bytes, size_t n) {
    memcpy(r->bytes + r->length, bytes, n);
    r->length += n;
}

static void put64(Record *r, uint64_t x) {
    uint8_t b[8];
    for (int i = 0; i < 8; i++) {
        b[i] = (uint8_t)(x >> (56 - 8 * i));
    }
    put(r, b, 8);
}

/* A curve record with these f_0 to f_2g: of version 2, with 2^61 - 1's witness, where p is that. */
static void make_curve(Record *r, uint8_t g, uint64_t p, const uint64_t *f) {
    static const uint64_t primes[] = {2, 3, 5, 7, 11, 13, 31, 41, 61, 151, 331, 1321};
    const uint8_t head[] = {'H', 'J', 'C', 0, p == P ? 2 : 1, g};
    put(r, head, sizeof head);
    put64(r, p);
    for (int i = 0; i <= 2 * g; i++) {
        put64(r, f[i]);
    }
    if (p == P) {
        const uint8_t k = sizeof primes / sizeof primes[0];
        put64(r, 37);
        put(r, &k, 1);
        for (int i = 0; i < k; i++) {
            put64(r, primes[i]);
        }
    }
}

static void make_point(Record *r, const uint64_t xy[2]) {
    const uint8_t weight = 1;
    put(r, &weight, 1);
    put64(r, xy[0] == 0 ? 0 : P - xy[0]);
    put64(r, xy[1]);
}

static void must(uint64_t number, const char *what) {
    if (number != 0) {
        printf("%s: refused with %llu\n", what, (unsigned long long)number);
        exit(1);
    }
}

static void prepare(void) {
    /* f_0 = 4 and f(1) = 9 */
    const uint64_t f3[7] = {4, P - 30, 5, 7, 11, 8, 3}, f2[5] = {4, P - 12, 5, 8, 3};
    const uint64_t f13[7] = {1, 2, 3, 4, 5, 6, 7}, f7[5] = {1, 0, 0, 0, 0};
    make_curve(&wide3, 3, P, f3);
    make_curve(&wide2, 2, P, f2);
    make_curve(&training, 3, 13, f13);
    make_curve(&small2, 2, 7, f7);
    make_point(&point, zero_two);
    make_point(&other, one_three);
    make_point(&unit, zero_one);
    YubiAnswer sum = yubi_add(wide3.bytes, wide3.length, point.bytes, point.length, other.bytes, other.length, both.bytes, sizeof both.bytes);
    must(sum.number, "the sum of two points");
    both.length = sum.length;
    Record d = both, step = both;
    for (int i = 0; i < RECORDS; i++) {
        Record next = {{0}, 0};
        sum = yubi_add(wide3.bytes, wide3.length, d.bytes, d.length, step.bytes, step.length, next.bytes, sizeof next.bytes);
        must(sum.number, "a record of the batch");
        next.length = sum.length;
        memcpy(batch + batch_length, next.bytes, next.length);
        batch_length += next.length;
        if (i < RECORDS - 1) {
            memcpy(repeated + repeated_length, next.bytes, next.length);
            repeated_length += next.length;
        }
        d = next;
    }
    memcpy(repeated + repeated_length, batch, 1 + 16 * (size_t)batch[0]);
    repeated_length += 1 + 16 * (size_t)batch[0];
    Record small = {{0}, 1}; /* the neutral one */
    for (int i = 0; i < RECORDS; i++) {
        Record next = {{0}, 1};
        if (i % 1000 != 999) {
            sum = yubi_next_divisor(training.bytes, training.length, small.bytes, small.length, next.bytes, sizeof next.bytes);
            must(sum.number, "a record of the small batch");
            next.length = sum.length;
        }
        memcpy(small_batch + small_length, next.bytes, next.length);
        small_length += next.length;
        small = next;
    }
    sum = yubi_write_pole_file(77, wide3.bytes, wide3.length, batch, batch_length, file, sizeof file);
    must(sum.number, "the pole file");
    file_length = sum.length;
    memset(scalar, 0xb5, sizeof scalar);
}

#define CURVE wide3.bytes, wide3.length
#define BATCH batch, batch_length
#define LAST batch + batch_length - 49, 49
#define OUT out, sizeof out

static uint64_t check_curve(void) { return yubi_check_curve(CURVE).number; }
static uint64_t check_divisor(void) { return yubi_check_divisor(CURVE, LAST).number; }
static uint64_t rewrite_curve(void) { return yubi_rewrite_curve(CURVE, OUT).number; }
static uint64_t rewrite_divisor(void) { return yubi_rewrite_divisor(CURVE, LAST, OUT).number; }
static uint64_t add(void) { return yubi_add(CURVE, batch, 49, LAST, OUT).number; }
static uint64_t add_special(void) { return yubi_add(CURVE, point.bytes, point.length, LAST, OUT).number; }
static uint64_t twice(void) { return yubi_double(CURVE, LAST, OUT).number; }
static uint64_t opposite(void) { return yubi_opposite(CURVE, LAST, OUT).number; }
static uint64_t split(void) { return yubi_split(CURVE, both.bytes, both.length, OUT).number; }
static uint64_t multiply(void) { return yubi_multiply(CURVE, LAST, scalar, sizeof scalar, OUT).number; }
static uint64_t multiply_free(void) {
    return yubi_multiply_inversion_free(wide2.bytes, wide2.length, point.bytes, point.length, scalar, sizeof scalar, OUT).number;
}
static uint64_t order(void) {
    const uint8_t five[1] = {5}, list[4] = {0, 0, 0, 5};
    return yubi_check_order(small2.bytes, small2.length, unit.bytes, unit.length, five, 1, list, 4).number;
}
static uint64_t other_order(void) {
    const uint8_t list[4] = {0, 0, 0, 2};
    uint8_t power[YUBI_SCALAR_ROOM] = {128};
    return yubi_check_order(CURVE, LAST, power, sizeof power, list, 4).number;
}
static uint64_t next_divisor(void) {
    const uint8_t neutral[1] = {0};
    return yubi_next_divisor(training.bytes, training.length, neutral, 1, OUT).number;
}
static uint64_t total(void) {
    YubiTotal t = yubi_total_batch(CURVE, BATCH, OUT);
    return t.number != 0 ? t.number : t.count == RECORDS ? 0 : 1000;
}
static uint64_t repeat(void) {
    YubiRepeat r = yubi_first_repeat(CURVE, BATCH);
    return r.number != 0 ? r.number : r.second == 0 ? 0 : 1000;
}
static uint64_t repeat_found(void) {
    YubiRepeat r = yubi_first_repeat(CURVE, repeated, repeated_length);
    return r.number != 0 ? r.number : r.first == 1 && r.second == RECORDS ? 0 : 1000;
}
static uint64_t scan(void) {
    uint8_t s[4 + 49] = {0, 0, 0, 77};
    memcpy(s + 4, batch, 49);
    YubiScanned first = yubi_scan(yubi_fresh_total(77), CURVE, s, sizeof s);
    memcpy(s + 4, batch + batch_length - 49, 49);
    return first.number != 0 ? first.number : yubi_scan(first.total, CURVE, s, sizeof s).number;
}
static uint64_t scan_lent(void) {
    uint8_t s[4 + 49] = {0, 0, 0, 77};
    YubiRunning running = yubi_fresh_total(77);
    memcpy(s + 4, batch, 49);
    uint64_t first = yubi_scan_lent(&running, CURVE, s, sizeof s).number;
    memcpy(s + 4, batch + batch_length - 49, 49);
    return first != 0 ? first : yubi_scan_lent(&running, CURVE, s, sizeof s).number;
}
static uint64_t write_file(void) { return yubi_write_pole_file(77, CURVE, BATCH, OUT).number; }
static uint64_t read_file(void) { return yubi_read_pole_file(file, file_length, OUT).number; }

/* Small curves: every multiple, sum and total of curve A's divisors that can be, special pairs among them. */
static uint64_t small_sums(void) {
    static const uint8_t neutral[1] = {0};
    uint8_t a[YUBI_DIVISOR_ROOM], b[YUBI_DIVISOR_ROOM], n[1] = {0};
    size_t a_length = 1, b_length;
    memcpy(a, neutral, 1);
    for (;;) {
        YubiAnswer next = yubi_next_divisor(small2.bytes, small2.length, a, a_length, b, sizeof b);
        if (next.number == YUBI_LAST_DIVISOR) {
            return 0;
        }
        if (next.number != YUBI_DONE) {
            return next.number;
        }
        b_length = next.length;
        memcpy(a, b, b_length);
        a_length = b_length;
        n[0]++;
        uint64_t number = yubi_add(small2.bytes, small2.length, a, a_length, unit.bytes, unit.length, OUT).number;
        number |= yubi_double(small2.bytes, small2.length, a, a_length, OUT).number;
        YubiMultiple one = yubi_multiply(small2.bytes, small2.length, a, a_length, n, 1, OUT);
        YubiMultiple other = yubi_multiply_inversion_free(small2.bytes, small2.length, a, a_length, n, 1, OUT);
        if (number != YUBI_DONE || one.number != other.number || (one.number != YUBI_DONE && one.number != YUBI_EMPTY_KEY)) {
            return 1000;
        }
    }
}
/* The batch of the first thousand divisors of the training curve, over and over. */
static uint64_t small_total(void) {
    YubiTotal t = yubi_total_batch(training.bytes, training.length, small_batch, small_length, OUT);
    return t.number != 0 ? t.number : t.count == RECORDS ? 0 : 1000;
}
static uint64_t fresh(void) { return yubi_fresh_total(77).count; }

typedef struct {
    const char *name;
    uint64_t (*run)(void);
    uint64_t wants, got;
} Call;

static Call *current;
static ucontext_t here, there;

static void work(void) { current->got = current->run(); }

/* Runs a call on a stack of so many bytes and answers how many of them were touched. */
static size_t touched(Call *call, size_t room) {
    uint8_t *area = mmap(NULL, PAGE + room, PROT_READ | PROT_WRITE, MAP_PRIVATE | MAP_ANONYMOUS, -1, 0);
    if (area == MAP_FAILED || mprotect(area, PAGE, PROT_NONE) != 0 || getcontext(&there) != 0) {
        perror("a stack");
        exit(1);
    }
    uint8_t *low = area + PAGE;
    memset(low, PAINT, room);
    there.uc_stack.ss_sp = low;
    there.uc_stack.ss_size = room;
    there.uc_link = &here;
    current = call;
    makecontext(&there, work, 0);
    if (swapcontext(&here, &there) != 0) {
        perror("a stack");
        exit(1);
    }
    size_t free_bytes = 0;
    while (free_bytes < room && low[free_bytes] == PAINT) {
        free_bytes++;
    }
    munmap(area, PAGE + room);
    return room - free_bytes;
}

int main(void) {
    Call calls[] = {
        {"yubi_check_curve", check_curve, 0, 0},
        {"yubi_check_divisor", check_divisor, 0, 0},
        {"yubi_rewrite_curve", rewrite_curve, 0, 0},
        {"yubi_rewrite_divisor", rewrite_divisor, 0, 0},
        {"yubi_add", add, 0, 0},
        {"yubi_add, a point", add_special, 0, 0},
        {"yubi_double", twice, 0, 0},
        {"yubi_opposite", opposite, 0, 0},
        {"yubi_split", split, 0, 0},
        {"yubi_multiply", multiply, 0, 0},
        {"yubi_multiply_inversion_free", multiply_free, 0, 0},
        {"sums and multiples at p = 7", small_sums, 0, 0},
        {"yubi_check_order", order, 0, 0},
        {"yubi_check_order, not it", other_order, YUBI_NOT_THE_ORDER, 0},
        {"yubi_next_divisor", next_divisor, 0, 0},
        {"yubi_total_batch", total, 0, 0},
        {"yubi_total_batch at p = 13", small_total, 0, 0},
        {"yubi_first_repeat", repeat, 0, 0},
        {"yubi_first_repeat, the last", repeat_found, 0, 0},
        {"yubi_fresh_total", fresh, 0, 0},
        {"yubi_scan", scan, 0, 0},
        {"yubi_scan_lent", scan_lent, 0, 0},
        {"yubi_write_pole_file", write_file, 0, 0},
        {"yubi_read_pole_file", read_file, 0, 0},
    };
    int wrong = 0;
    size_t most[2] = {0, 0};
    prepare();
    for (size_t i = 0; i < sizeof calls / sizeof calls[0]; i++) {
        int repeats = calls[i].run == repeat || calls[i].run == repeat_found;
        size_t room = repeats ? YUBI_REPEAT_STACK_ROOM : YUBI_STACK_ROOM, all = touched(&calls[i], room);
        printf("%-30s %6zu of %zu\n", calls[i].name, all, room);
        fflush(stdout);
        most[repeats] = all > most[repeats] ? all : most[repeats];
        if (calls[i].got != calls[i].wants) {
            printf("  answered %llu, not %llu\n", (unsigned long long)calls[i].got, (unsigned long long)calls[i].wants);
            wrong = 1;
        }
    }
    printf("%zu runs: at most %zu bytes, in yubi_first_repeat %zu\n", sizeof calls / sizeof calls[0], most[0], most[1]);
    return wrong;
}
