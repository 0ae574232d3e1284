/*
 * yubisorade_words.h: the numbers of yubisorade.h in words, for a screen or a log. Needs nothing of the library.
 * Made from numbers.txt by tools/make/number_table.py.
 */
#ifndef YUBISORADE_WORDS_H
#define YUBISORADE_WORDS_H

#include "yubisorade.h"

/* When a number is given. */
static inline const char *yubi_cause(uint64_t number)
{
    switch (number) {
    case YUBI_DONE:
        return "done";
    case YUBI_CURVE_LENGTH:
        return "the curve record is shorter than 6 bytes, or isn't 54 or 70 bytes as its g says; in version 2, ends before k, or isn't 63 + 8k or 79 + 8k bytes";
    case YUBI_CURVE_MARK:
        return "the mark isn't HJC";
    case YUBI_CURVE_VERSION:
        return "the version isn't 1 or 2";
    case YUBI_GENUS:
        return "g isn't 2 or 3";
    case YUBI_PRIME:
        return "p isn't an odd prime from 3 to 2147483647; in version 2, p is even, below 3 or above 2^61 - 1";
    case YUBI_CURVE_COEFFICIENT:
        return "some f_i is p or more";
    case YUBI_REPEATED_FACTOR:
        return "f has a repeated factor";
    case YUBI_DIVISOR_LENGTH:
        return "a divisor record is empty, or not 1 + 16w bytes (in a batch: fewer bytes remain); a scan has under 4 bytes";
    case YUBI_WEIGHT:
        return "the weight w is above g";
    case YUBI_DIVISOR_COEFFICIENT:
        return "some u_i or v_i is p or more";
    case YUBI_NOT_ON_CURVE:
        return "u doesn't divide f - v^2";
    case YUBI_SCALAR_LENGTH:
        return "the scalar or the order has more than 32 bytes";
    case YUBI_OUTPUT_LENGTH:
        return "the output is shorter than the result";
    case YUBI_FULL:
        return "a batch goes on after 4096 good records, or a running total already holds 4096";
    case YUBI_RUNNING_TOTAL:
        return "a running total's divisor has a number of p or more, or isn't valid on this curve, or its count is over 4096 (here also: weight above g, or an unused coefficient that isn't 0)";
    case YUBI_FILE_LENGTH:
        return "of the programs alone, no call gives it: a file has over 65536 bytes";
    case YUBI_UNREADABLE:
        return "of the programs alone, no call gives it: a file can't be opened or read";
    case YUBI_WITNESS:
        return "in version 2: k isn't 1 to 15, or the witness doesn't show p prime, whatever p is";
    case YUBI_EMPTY_KEY:
        return "in yubi_multiply and yubi_multiply_inversion_free: the divisor given or its multiple is neutral";
    case YUBI_OTHER_POLE:
        return "in a scan: it is for another pole than the total";
    case YUBI_POLE_FILE_MARK:
        return "in a pole file: the mark isn't HJP";
    case YUBI_POLE_FILE_VERSION:
        return "in a pole file: the version isn't 1";
    case YUBI_POLE_FILE_LENGTH:
        return "in a pole file: it is shorter than 9 bytes, ends before the count or before the last record that the count says, goes on behind that one, or the count is over 4096";
    case YUBI_LAST_DIVISOR:
        return "in yubi_next_divisor: the divisor given is the last";
    case YUBI_NOT_FOR_TRAINING:
        return "in yubi_next_divisor: p is above 13";
    case YUBI_NO_ROOT:
        return "in yubi_split: the divisor's weight is below 2, or u has no root modulo p";
    case YUBI_NOT_THE_ORDER:
        return "in yubi_check_order: the order isn't shown to be the divisor's: it is 0, or not made up of powers of just the listed primes, or its multiple isn't neutral, or that of a q-th of it is, q listed; or the list isn't whole, too long, not rising, or has a number that is no prime below 2^31 or doesn't divide the order";
    default:
        return "no number of this table";
    }
}

/* What a crew should do. */
static inline const char *yubi_advice(uint64_t number)
{
    switch (number) {
    case YUBI_DONE:
        return "go on";
    case YUBI_CURVE_LENGTH:
        return "load the curve file again: it is cut, or something was added to it";
    case YUBI_CURVE_MARK:
        return "load the right file: this one isn't a curve";
    case YUBI_CURVE_VERSION:
        return "ask for a curve in version 1 or 2, or for a newer tablet";
    case YUBI_GENUS:
        return "report the curve to the office: wrong genus";
    case YUBI_PRIME:
        return "report the curve to the office: wrong prime";
    case YUBI_CURVE_COEFFICIENT:
        return "report the curve to the office: damaged or wrongly made";
    case YUBI_REPEATED_FACTOR:
        return "report the curve to the office: unfit for meters";
    case YUBI_DIVISOR_LENGTH:
        return "scan that meter again: the record is cut, or too long";
    case YUBI_WEIGHT:
        return "check that meter and curve belong together; scan again";
    case YUBI_DIVISOR_COEFFICIENT:
        return "check that meter and curve belong together; scan again";
    case YUBI_NOT_ON_CURVE:
        return "scan again; if it stays, the meter isn't on this curve: leave it out and report it";
    case YUBI_SCALAR_LENGTH:
        return "mend the caller: a scalar or an order has at most 256 bits";
    case YUBI_OUTPUT_LENGTH:
        return "mend the caller: lend as many bytes as the longest result has";
    case YUBI_FULL:
        return "close this list and begin a new one";
    case YUBI_RUNNING_TOTAL:
        return "begin the list again with a fresh total: this one is damaged, or the curve was changed under it";
    case YUBI_FILE_LENGTH:
        return "load the right file; a list that is so long, part in two";
    case YUBI_UNREADABLE:
        return "put the file into the folder, and see that it may be read";
    case YUBI_WITNESS:
        return "don't use the curve: p isn't shown to be prime. Load the curve file again; if it stays, ask the office for a curve with a right witness";
    case YUBI_EMPTY_KEY:
        return "don't commission the meter: its key would be empty. Ask the office for a new key";
    case YUBI_OTHER_POLE:
        return "scan it again for its own pole: the total stays as it was";
    case YUBI_POLE_FILE_MARK:
        return "load the right file: this one isn't a pole's";
    case YUBI_POLE_FILE_VERSION:
        return "ask for a pole file in version 1, or for a newer tablet";
    case YUBI_POLE_FILE_LENGTH:
        return "load the pole file again: it is cut, or something was added to it";
    case YUBI_LAST_DIVISOR:
        return "go on: the census is complete";
    case YUBI_NOT_FOR_TRAINING:
        return "take a training curve, with p of 13 or less";
    case YUBI_NO_ROOT:
        return "keep that divisor whole: it can't be split, and nothing is wrong with the meter";
    case YUBI_NOT_THE_ORDER:
        return "don't rely on that order. Load order and list again; if it stays, ask the office for the key's order";
    default:
        return "ask the office for a newer tablet, and report the number";
    }
}

#endif
