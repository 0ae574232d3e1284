/*
 * yubisorade.h: arithmetic of divisors on hyperelliptic curves, for electricity meters.
 *
 * Curves are y^2 = f(x), of genus g = 2 or 3, f monic of degree 2g + 1 without a repeated factor, over the whole numbers
 * modulo an odd prime p, 3 <= p <= 2147483647, or p <= 2^61 - 1 where the curve's record has a witness that p is prime. A
 * meter's key is a divisor on such a curve.
 *
 * LINKING
 *   `bash tools/library.sh` proves the library and writes target/staticlib/libtablet.a, for Linux on x86-64-v2 or later. It
 *   needs memcpy and memset, which every C library has, and nothing else: no allocation, no files, no threads, no state. Every call
 *   may run on any number of threads at once. It has no unwind tables: no call throws or calls back, but a debugger or a profiler
 *   can't walk the stack out of one.
 *
 * RECORDS (all numbers big-endian)
 *   curve     'H' 'J' 'C', version 1 in 2 bytes, g in 1 byte, p in 8 bytes, f_0 to f_2g in 8 bytes each; f's leading 1
 *             isn't stored. 54 bytes for g = 2, 70 for g = 3.
 *             Version 2 has 2 for its version, and a witness behind the coefficients: a base a in 8 bytes, a count k in 1 byte,
 *             1 to 15, and k primes in 8 bytes each. 63 + 8k bytes for g = 2, 79 + 8k for g = 3. The witness shows p prime,
 *             whoever proposed it: 1 <= a < p; the primes are below 2^31, rise, and are just those that divide p - 1;
 *             a^(p-1) is 1 modulo p, and no a^((p-1)/q) is, q a listed prime. One for p = 2^61 - 1 is a = 37, k = 12 and 2, 3,
 *             5, 7, 11, 13, 31, 41, 61, 151, 331, 1321. A prime p can't be shown so where p - 1 has a prime of 2^31 or more.
 *             Every call takes both versions. Version 1's p is tested by trial division, at each call: at p near 2^31 a curve's
 *             check, most of a sum's or a scan's work, takes less than a sixth of the instructions with a record of version 2, and
 *             every p of version 1 can have one.
 *   divisor   weight w in 1 byte, u_0 to u_(w-1), v_0 to v_(w-1) in 8 bytes each: 1 + 16w bytes, w <= g. u is monic of
 *             degree w, v has a smaller degree, and u divides f - v^2. The single byte 00 is the neutral divisor.
 *   scalar    0 to 32 bytes, unsigned. No bytes mean 0; leading zeros are allowed.
 *   primes    of an order: 0 to 32 primes below 2^31 in 4 bytes each, rising. The order itself is 0 to 32 bytes, as a scalar.
 *   batch     0 to 4096 divisor records, one behind the other, nothing between them.
 *   scan      the number of a pole in 4 bytes, then one divisor record: 5 + 16w bytes.
 *   pole file 'H' 'J' 'P', version 1 in 2 bytes, the number of a pole in 4 bytes, a curve record of either version, in 2 bytes how
 *             many divisor records follow, 0 to 4096, and these: a batch.
 *
 * ARGUMENTS
 *   Bytes pass as a pointer and then a length. With length 0 any pointer will do, NULL too; it is neither read nor written. Each
 *   call checks its records itself, each time; no bytes are asked to be well formed.
 *   An output must not overlap any input of the same call, nor must a running total that is lent. Inputs may overlap each
 *   other, or be the same.
 *
 * ROOM THAT ALWAYS SUFFICES for an output
 *   a divisor  33 bytes for g = 2, 49 for g = 3 (YUBI_DIVISOR_ROOM)
 *   a curve    54 bytes for g = 2, 70 for g = 3 in version 1; 183 and 199 in version 2 (YUBI_CURVE_ROOM)
 *   a split    34 bytes for weight 2, 50 for weight 3 (YUBI_SPLIT_ROOM)
 *   a pole file, written: 9 + 199 + 2 + 4096 * 49 bytes (YUBI_POLE_FILE_ROOM), or 11 more than curve and batch have
 *   a pole file, read: 11 bytes less than the file has
 *   A smaller output does where the result is shorter: 1 + 16w bytes for weight w, a curve as long as it was given.
 *
 * THE SAME METER
 *   A good record has one form: a divisor has one record, and each record that a call writes is that one. So two good records on one
 *   curve are the same meter, whose divisors are equal or opposite, exactly when their bytes are equal, or the bytes of one are what
 *   yubi_opposite writes for the other. That is the way to look for repeats while a list grows; yubi_first_repeat searches a whole
 *   one.
 *
 * STACK
 *   16 KB that are free where the call is made do for every call but yubi_first_repeat, which keeps the places of 4096 records: 64 KB
 *   do for that (YUBI_STACK_ROOM, YUBI_REPEAT_STACK_ROOM). Along any way of calls in the library the frames add up to at most 14536
 *   bytes of stack, in yubi_total_batch, and in yubi_first_repeat to 52200. Not counted are memcpy's and memset's own, and the dynamic
 *   linker's, where it binds those two at their first call. Touched were at most 14632 by a total, 13096 by sums, multiples and
 *   the order, 6672 by a scan, 3512 by the others (tools/stack.sh adds up and measures).
 *
 * ANSWERS
 *   Each call answers a number, a place and a length. On number 0 the result stands in the first `length` bytes of the
 *   output and the rest of the output keeps its bytes. On any other number no byte of an output changes, a running total
 *   comes back or stays as it was given, and length, counts, first, second and a file's pole are 0. The place says which
 *   divisor record is at fault, counted from 1, for the numbers 8 to 11; where a call has one divisor, as a scan has, that is
 *   always 1. For every other number the place is 0.
 *   Every call but yubi_fresh_total is handed a curve, checks it, and may give 1 to 7 and, in version 2, 18. 16 and 17 are those of
 *   the programs bin/tally and bin/census, which read files: no call gives them.
 *
 *   no.  given exactly when                                     what a crew should do
 *     0  done                                                   go on
 *     1  the curve record is shorter than 6 bytes, or isn't 54  load the curve file again: it is cut, or something was
 *        or 70 bytes as its g says; in version 2, ends before   added to it
 *        k, or isn't 63 + 8k or 79 + 8k bytes
 *     2  the mark isn't HJC                                     load the right file: this one isn't a curve
 *     3  the version isn't 1 or 2                               ask for a curve in version 1 or 2, or for a newer tablet
 *     4  g isn't 2 or 3                                         report the curve to the office: wrong genus
 *     5  p isn't an odd prime from 3 to 2147483647; in version  report the curve to the office: wrong prime
 *        2, p is even, below 3 or above 2^61 - 1
 *     6  some f_i is p or more                                  report the curve to the office: damaged or wrongly made
 *     7  f has a repeated factor                                report the curve to the office: unfit for meters
 *     8  a divisor record is empty, or not 1 + 16w bytes (in a  scan that meter again: the record is cut, or too long
 *        batch: fewer bytes remain); a scan has under 4 bytes
 *     9  the weight w is above g                                check that meter and curve belong together; scan again
 *    10  some u_i or v_i is p or more                           check that meter and curve belong together; scan again
 *    11  u doesn't divide f - v^2                               scan again; if it stays, the meter isn't on this curve:
 *                                                               leave it out and report it
 *    12  the scalar or the order has more than 32 bytes         mend the caller: a scalar or an order has at most 256 bits
 *    13  the output is shorter than the result                  mend the caller: lend as many bytes as the longest result
 *                                                               has
 *    14  a batch goes on after 4096 good records, or a running  close this list and begin a new one
 *        total already holds 4096
 *    15  a running total's divisor has a number of p or more,   begin the list again with a fresh total: this one is
 *        or isn't valid on this curve, or its count is over     damaged, or the curve was changed under it
 *        4096 (here also: weight above g, or an unused
 *        coefficient that isn't 0)
 *    16  of the programs alone, no call gives it: a file has    load the right file; a list that is so long, part in two
 *        over 65536 bytes
 *    17  of the programs alone, no call gives it: a file can't  put the file into the folder, and see that it may be read
 *        be opened or read
 *    18  in version 2: k isn't 1 to 15, or the witness doesn't  don't use the curve: p isn't shown to be prime. Load the
 *        show p prime, whatever p is                            curve file again; if it stays, ask the office for a curve
 *                                                               with a right witness
 *    19  in yubi_multiply and yubi_multiply_inversion_free:     don't commission the meter: its key would be empty. Ask
 *        the divisor given or its multiple is neutral           the office for a new key
 *    20  in a scan: it is for another pole than the total       scan it again for its own pole: the total stays as it was
 *    21  in a pole file: the mark isn't HJP                     load the right file: this one isn't a pole's
 *    22  in a pole file: the version isn't 1                    ask for a pole file in version 1, or for a newer tablet
 *    23  in a pole file: it is shorter than 9 bytes, ends       load the pole file again: it is cut, or something was
 *        before the count or before the last record that the    added to it
 *        count says, goes on behind that one, or the count is
 *        over 4096
 *    24  in yubi_next_divisor: the divisor given is the last    go on: the census is complete
 *    25  in yubi_next_divisor: p is above 13                    take a training curve, with p of 13 or less
 *    26  in yubi_split: the divisor's weight is below 2, or u   keep that divisor whole: it can't be split, and nothing is
 *        has no root modulo p                                   wrong with the meter
 *    27  in yubi_check_order: the order isn't shown to be the   don't rely on that order. Load order and list again; if it
 *        divisor's: it is 0, or not made up of powers of just   stays, ask the office for the key's order
 *        the listed primes, or its multiple isn't neutral, or
 *        that of a q-th of it is, q listed; or the list isn't
 *        whole, too long, not rising, or has a number that is
 *        no prime below 2^31 or doesn't divide the order
 *
 *   Where several would fit, the first in this order is given: the curve's 1 (under 6 bytes), 2, 3, 4, then in version 1 1, 5,
 *   and in version 2 1 (ends before k), 18 (k), 1, 5, 18, then in both 6, 7; for a scan 15, 14, 8 (under 4 bytes), 20; for a census
 *   25; then the divisors from first to last, each 8 (empty), 9, 8 (length), 10, 11; in a batch 14 comes only after 4096 good records,
 *   and before the next one is looked at; then 12; then 19, 24, 26 or 27; then 13.
 *   A pole file that is read has 23 (under 9 bytes), 21, 22, then the curve's, 1 where it is cut short, then 23 (the count), then
 *   its records from first to last, each 23 (missing), 9, 23 (cut short), 10, 11, then 23 (bytes left over), then 13.
 */
#ifndef YUBISORADE_H
#define YUBISORADE_H

#include <stddef.h>
#include <stdint.h>

#ifdef __cplusplus
extern "C" {
#endif

/* The version of this header and of the library that goes with it. */
#define YUBI_VERSION "1.0.0"

/* Stands before calls whose answer is all they do: a compiler warns where it isn't looked at. */
#if defined(__GNUC__)
#define YUBI_MUST_USE __attribute__((warn_unused_result))
#else
#define YUBI_MUST_USE
#endif

/* The numbers of the table above, by name. YUBI_FILE_LENGTH and YUBI_UNREADABLE are the programs' own. */
typedef enum YubiNumber {
    YUBI_DONE = 0,
    YUBI_CURVE_LENGTH = 1,
    YUBI_CURVE_MARK = 2,
    YUBI_CURVE_VERSION = 3,
    YUBI_GENUS = 4,
    YUBI_PRIME = 5,
    YUBI_CURVE_COEFFICIENT = 6,
    YUBI_REPEATED_FACTOR = 7,
    YUBI_DIVISOR_LENGTH = 8,
    YUBI_WEIGHT = 9,
    YUBI_DIVISOR_COEFFICIENT = 10,
    YUBI_NOT_ON_CURVE = 11,
    YUBI_SCALAR_LENGTH = 12,
    YUBI_OUTPUT_LENGTH = 13,
    YUBI_FULL = 14,
    YUBI_RUNNING_TOTAL = 15,
    YUBI_FILE_LENGTH = 16,
    YUBI_UNREADABLE = 17,
    YUBI_WITNESS = 18,
    YUBI_EMPTY_KEY = 19,
    YUBI_OTHER_POLE = 20,
    YUBI_POLE_FILE_MARK = 21,
    YUBI_POLE_FILE_VERSION = 22,
    YUBI_POLE_FILE_LENGTH = 23,
    YUBI_LAST_DIVISOR = 24,
    YUBI_NOT_FOR_TRAINING = 25,
    YUBI_NO_ROOT = 26,
    YUBI_NOT_THE_ORDER = 27
} YubiNumber;

/* Bytes that hold any divisor record, any curve record, the two records of any split, any pole file, the longest scalar or
 * order. */
#define YUBI_DIVISOR_ROOM 49
#define YUBI_CURVE_ROOM 199
#define YUBI_SPLIT_ROOM 50
#define YUBI_POLE_FILE_ROOM 200914
#define YUBI_SCALAR_ROOM 32

/* Bytes of stack that do for every call but yubi_first_repeat, and for it. */
#define YUBI_STACK_ROOM 16384
#define YUBI_REPEAT_STACK_ROOM 65536

/* The largest p of a training curve. */
#define YUBI_LARGEST_TRAINING 13

/* The most primes of an order. */
#define YUBI_MOST_PRIMES 32

/* The most records of a batch, and the largest count of a running total. */
#define YUBI_MOST_RECORDS 4096

/* What most calls answer. */
typedef struct YubiAnswer {
    uint64_t number; /* YUBI_DONE, or why it was refused: a YubiNumber */
    uint64_t place;  /* which divisor is at fault, from 1; 0 for none */
    uint64_t length; /* bytes written to the front of the output */
} YubiAnswer;

/* What yubi_multiply and yubi_multiply_inversion_free answer. The counts are those of double-and-add from the left over the
 * scalar's signed digits: -1, 0 and 1, no two neighbours both nonzero, the highest 1. */
typedef struct YubiMultiple {
    uint64_t number;
    uint64_t place;
    uint64_t length;
    uint64_t doublings; /* digits less 1; 0 for scalar 0 */
    uint64_t additions; /* nonzero digits less 1; 0 for scalar 0 */
} YubiMultiple;

/* What yubi_total_batch answers. */
typedef struct YubiTotal {
    uint64_t number;
    uint64_t place;
    uint64_t length;
    uint64_t count; /* records summed */
} YubiTotal;

/* What yubi_first_repeat answers. */
typedef struct YubiRepeat {
    uint64_t number;
    uint64_t place;
    uint64_t length; /* always 0: the search writes no output */
    uint64_t first;  /* place of the earlier of the two, from 1; 0 for none */
    uint64_t second; /* place of the later one; 0 for none */
} YubiRepeat;

/* A running total of one pole: a divisor, a count and the pole's number. Begin with yubi_fresh_total. Coefficients from u_w and v_w
 * on are 0. */
typedef struct YubiRunning {
    uint64_t weight;
    uint64_t u0;
    uint64_t u1;
    uint64_t u2;
    uint64_t v0;
    uint64_t v1;
    uint64_t v2;
    uint64_t count; /* scans taken */
    uint32_t pole;  /* the only pole whose scans it takes */
} YubiRunning;

/* What yubi_scan answers. */
typedef struct YubiScanned {
    uint64_t number;
    uint64_t place;
    uint64_t length;   /* always 0: a scan writes no output */
    YubiRunning total; /* the total after the scan; as it was given where the number isn't 0 */
} YubiScanned;

/* What yubi_read_pole_file answers. */
typedef struct YubiPole {
    uint64_t number;
    uint64_t place;
    uint64_t length;
    uint32_t pole; /* the pole's number; 0 where the number isn't 0 */
} YubiPole;

/* Checks a curve record: 0 to 7, 18. Writes nothing. */
YUBI_MUST_USE
YubiAnswer yubi_check_curve(const uint8_t *curve, size_t curve_length);

/* Checks a divisor record on a curve: 0 to 11, 18. Writes nothing. */
YUBI_MUST_USE
YubiAnswer yubi_check_divisor(const uint8_t *curve, size_t curve_length, const uint8_t *divisor, size_t divisor_length);

/* Checks a curve record and writes it to out: 0 to 7, 13, 18. A good record has one form, so the bytes are those given, the witness
 * among them. */
YubiAnswer yubi_rewrite_curve(const uint8_t *curve, size_t curve_length, uint8_t *out, size_t out_length);

/* Checks a divisor record and writes it to out: 0 to 11, 13, 18. */
YubiAnswer yubi_rewrite_divisor(const uint8_t *curve, size_t curve_length, const uint8_t *divisor, size_t divisor_length,
                                uint8_t *out, size_t out_length);

/* Writes the sum of the divisors a (place 1) and b (place 2) to out: 0 to 11, 13, 18. */
YubiAnswer yubi_add(const uint8_t *curve, size_t curve_length, const uint8_t *a, size_t a_length, const uint8_t *b,
                    size_t b_length, uint8_t *out, size_t out_length);

/* Writes the sum of the divisor a with itself to out: 0 to 11, 13, 18. */
YubiAnswer yubi_double(const uint8_t *curve, size_t curve_length, const uint8_t *a, size_t a_length, uint8_t *out,
                       size_t out_length);

/* Writes the opposite of the divisor a, (u, -v), to out: 0 to 11, 13, 18. */
YubiAnswer yubi_opposite(const uint8_t *curve, size_t curve_length, const uint8_t *a, size_t a_length, uint8_t *out,
                         size_t out_length);

/* Splits a divisor in two whose sum it is, and writes their records to out, one behind the other: 0 to 11, 13, 18, 26. The first has
 * weight 1, 17 bytes: (x - r, v(r)) at a root r of u. Of weight 2 the other has weight 1 too, 34 bytes in all: the one with the
 * smaller u_0, which is p - r or 0, stands first, and at a double root they are equal. Of weight 3 the first is at the largest root,
 * as a number below p, and the other has weight 2, 50 bytes in all; it may have roots too and can be split again. A weight below 2,
 * and a u without a root, give 26, however short the output is. yubi_add of the two gives the divisor back. */
YubiAnswer yubi_split(const uint8_t *curve, size_t curve_length, const uint8_t *divisor, size_t divisor_length, uint8_t *out,
                      size_t out_length);

/* Writes the sum of n copies of the divisor a to out, n the scalar: 0 to 13, 18, 19. There are no empty keys: a neutral divisor, and
 * a scalar whose multiple is neutral, 0 among them, give 19. Its time depends on the scalar. */
YubiMultiple yubi_multiply(const uint8_t *curve, size_t curve_length, const uint8_t *a, size_t a_length,
                           const uint8_t *scalar, size_t scalar_length, uint8_t *out, size_t out_length);

/* The same multiple by inversion-free coordinates, for machines that divide slowly: one division at the end, where genus 2
 * meets no special pair. Answer and output are those of yubi_multiply on the same bytes: 0 to 13, 18, 19. */
YubiMultiple yubi_multiply_inversion_free(const uint8_t *curve, size_t curve_length, const uint8_t *a, size_t a_length,
                                          const uint8_t *scalar, size_t scalar_length, uint8_t *out, size_t out_length);

/* Checks that n, the order's bytes as a number, is the order of a divisor, by the list of n's primes, whoever proposed them: 0 to
 * 12, 18, 27. Accepted where n > 0, n is made up of powers of just the listed primes, each of them dividing it, the sum of n copies is
 * neutral, and for no listed prime q that of n/q copies is. Then the sum of m copies is neutral exactly where n divides m. An empty
 * list goes with n = 1, the order of the neutral divisor alone. Neutral sums are no reason for 19 here. Writes nothing. */
YUBI_MUST_USE
YubiAnswer yubi_check_order(const uint8_t *curve, size_t curve_length, const uint8_t *divisor, size_t divisor_length,
                            const uint8_t *order, size_t order_length, const uint8_t *primes, size_t primes_length);

/* Writes the next divisor after the one given to out, on a training curve: 0 to 11, 13, 18, 24, 25. Divisors are in the order of their
 * weight, then of the bytes of their records. Begin with the neutral divisor, the single byte 00, and hand what was written to the
 * next call: each valid divisor of the curve comes once, then 24. A curve with p above 13 gives 25, whatever the divisor's bytes
 * are. A call tries one record after the other behind the one given: a whole census tries 4,855,540 at p = 13 in genus 3. */
YubiAnswer yubi_next_divisor(const uint8_t *curve, size_t curve_length, const uint8_t *divisor, size_t divisor_length,
                             uint8_t *out, size_t out_length);

/* Writes the sum of a batch's divisors to out, neutral for an empty batch, and answers how many: 0 to 11, 13, 14, 18. */
YubiTotal yubi_total_batch(const uint8_t *curve, size_t curve_length, const uint8_t *batch, size_t batch_length,
                           uint8_t *out, size_t out_length);

/* Checks a whole batch and then finds its first two records of the same meter, whose divisors are equal or opposite: the least
 * second, then the least first before it; both 0 where no two are: 0 to 11, 14, 18. */
YUBI_MUST_USE
YubiRepeat yubi_first_repeat(const uint8_t *curve, size_t curve_length, const uint8_t *batch, size_t batch_length);

/* A pole's running total that has taken no scan: neutral, count 0. Every number is a pole's. */
YUBI_MUST_USE
YubiRunning yubi_fresh_total(uint32_t pole);

/* Adds the divisor of one scan to a running total, and 1 to its count: 0 to 11, 14, 15, 18, 20. A scan begins with the number of its
 * pole, and one for another pole gives 20, whatever record follows. From a fresh total, after each scan the total is the batch total
 * of the pole's own records taken so far under the same curve, whatever was scanned for others between them. */
YUBI_MUST_USE
YubiScanned yubi_scan(YubiRunning total, const uint8_t *curve, size_t curve_length, const uint8_t *scan, size_t scan_length);

/* The same scan into a running total that is lent, not NULL, and changed in place: 0 to 11, 14, 15, 18, 20. */
YubiAnswer yubi_scan_lent(YubiRunning *total, const uint8_t *curve, size_t curve_length, const uint8_t *scan,
                          size_t scan_length);

/* Checks a curve record and a batch, and writes the file of a pole that has them to out: 0 to 11, 13, 14, 18. */
YubiAnswer yubi_write_pole_file(uint32_t pole, const uint8_t *curve, size_t curve_length, const uint8_t *batch,
                                size_t batch_length, uint8_t *out, size_t out_length);

/* Checks a pole file, answers the pole's number, and writes the file's curve record to out and its divisor records behind it: 0 to
 * 7, 9 to 11, 13, 18, 21 to 23. The curve record is the first 22 + 16g bytes of what was written in version 1, the first 31 + 16g + 8k
 * in version 2: its version stands in the bytes 3 and 4, g in byte 5, k in byte 30 + 16g, counted from 0. What follows, up to
 * `length`, is a batch. Written again, pole, curve and batch make the same file, byte for byte. */
YubiPole yubi_read_pole_file(const uint8_t *file, size_t file_length, uint8_t *out, size_t out_length);

#ifdef __cplusplus
}
#endif

#endif
