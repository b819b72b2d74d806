/* Calls every function of the static library once on document 01's example (a), or on the same loop while true, and once where it is
 * refused. */
#include "delzhomo.h"

#include <stdio.h>
#include <string.h>

static const uint8_t unit[] = {1, 0, 0, 0, 26, 0, 0, 0, 0, 21, 0, 0, 0, 17, 3, 0, 0, 0, 3, 2, 15, 0, 0, 0, 0, 5, 0, 0, 0, 1, 8};

/* The same while true; stripped, it is the one above. */
static const uint8_t loop[] = {1, 0, 0, 0, 26, 0, 0, 0, 0, 21, 0, 0, 0, 17, 3, 0, 0, 0, 3, 2, 15, 1, 0, 0, 0, 5, 0, 0, 0, 1, 8};

/* A listing of the unit's four records. */
enum { FRONT = 5, RECORD = 22, LENGTH = FRONT + 4 * RECORD };

static int failures;

static void expect(const char *what, bool holds) {
    if (!holds) {
        printf("calls.c: %s\n", what);
        failures++;
    }
}

/* Three numbers that a call writes. */
static size_t a, b, c;

static bool are(size_t x, size_t y, size_t z) { return a == x && b == y && c == z; }

static bool all(const uint8_t *bytes, size_t n, uint8_t value) {
    for (size_t i = 0; i < n; i++) {
        if (bytes[i] != value) return false;
    }
    return true;
}

static void strip(void) {
    uint8_t stripped[sizeof loop + 3];
    memset(stripped, 0xA5, sizeof stripped);
    expect("strip, a byte short", !delzhomo_strip(loop, sizeof loop, stripped, sizeof loop - 1, &a, &b, &c) && are(20, 0, 0));
    expect("a refusal leaves the stripped", all(stripped, sizeof stripped, 0xA5));
    expect("strip", delzhomo_strip(loop, sizeof loop, stripped, sizeof stripped, &a, &b, &c) && are(sizeof loop, 0, 0));
    expect("the constant", memcmp(stripped, unit, sizeof unit) == 0);
    expect("behind the stripped", all(stripped + sizeof loop, 3, 0xA5));
}

/* The first of a record, as a signed number. */
static int first_of(const uint8_t *listing, size_t number) {
    const uint8_t *field = listing + FRONT + number * RECORD + 2;
    int bits = field[0] * 256 + field[1];
    return bits < 32768 ? bits : bits - 65536;
}

/* A Jump's first is set to what leaves 16 bits: the lowest number when it is stored, the highest when it is restored. */
static void store_too_far(const uint8_t *code) {
    uint8_t far[LENGTH], out[LENGTH];
    memcpy(far, code, LENGTH);
    memset(out, 0xA5, LENGTH);
    memcpy(far + FRONT + 3 * RECORD + 2, "\x80\x00", 2);
    expect("store, a field too low", !delzhomo_store(far, LENGTH, out, LENGTH, &a, &b, &c) && are(33, 3, 0));
    memcpy(far + FRONT + 2 * RECORD + 2, "\x7F\xFF", 2);
    expect("restore, a field too high", !delzhomo_restore(far, LENGTH, out, LENGTH, &a, &b, &c) && are(33, 2, 0));
    expect("these leave the out too", all(out, LENGTH, 0xA5));
}

static void store(const uint8_t *code) {
    uint8_t stored[LENGTH + 3], again[LENGTH + 3];
    memset(stored, 0xA5, sizeof stored);
    memset(again, 0xA5, sizeof again);
    expect("store, no listing", !delzhomo_store(code, LENGTH - 1, stored, sizeof stored, &a, &b, &c) && are(30, 0, 0));
    expect("store, a byte short", !delzhomo_store(code, LENGTH, stored, LENGTH - 1, &a, &b, &c) && are(20, 0, 0));
    expect("a refusal leaves the stored", all(stored, sizeof stored, 0xA5));
    expect("store", delzhomo_store(code, LENGTH, stored, sizeof stored, &a, &b, &c) && are(4, 0, 0));
    expect("7, 3 and -10 are stored", first_of(stored, 0) == 7 && first_of(stored, 2) == 3 && first_of(stored, 3) == -10);
    expect("behind the stored", all(stored + LENGTH, 3, 0xA5));
    expect("restore, no listing", !delzhomo_restore(stored, LENGTH - 1, again, sizeof again, &a, &b, &c) && are(30, 0, 0));
    expect("restore, a byte short", !delzhomo_restore(stored, LENGTH, again, LENGTH - 1, &a, &b, &c) && are(20, 0, 0));
    expect("a refusal leaves the restored", all(again, sizeof again, 0xA5));
    expect("restore", delzhomo_restore(stored, LENGTH, again, sizeof again, &a, &b, &c) && are(4, 0, 0));
    expect("the same code again", memcmp(again, code, LENGTH) == 0);
    expect("behind the restored", all(again + LENGTH, 3, 0xA5));
    store_too_far(code);
}

int main(void) {
    uint8_t listing[LENGTH + 3], code[LENGTH + 3];
    uint32_t marks[3] = {7, 7, 7};
    memset(listing, 0xA5, sizeof listing);
    memset(code, 0xA5, sizeof code);

    expect("measure", delzhomo_measure(unit, sizeof unit, &a, &b, &c) && are(4, 2, 10));
    expect("measure, no unit", !delzhomo_measure(unit, 5, &a, &b, &c) && are(1, 0, 0));
    expect("lower, a byte short", !delzhomo_lower(unit, sizeof unit, listing, LENGTH - 1, marks, 3, &a, &b, &c) && are(20, 0, 0));
    expect("a refusal leaves the listing", all(listing, sizeof listing, 0xA5));
    expect("a refusal leaves the marks", marks[0] == 7 && marks[1] == 7);
    expect("lower", delzhomo_lower(unit, sizeof unit, listing, sizeof listing, marks, 3, &a, &b, &c) && are(4, 2, 10));
    expect("the marks", marks[0] == 0 && marks[1] == 10 && marks[2] == 7);
    expect("behind the listing", all(listing + LENGTH, 3, 0xA5));
    expect("check", delzhomo_check(listing, LENGTH, &a, &b, &c) && are(4, 0, 0));
    expect("check, a part record", !delzhomo_check(listing, LENGTH - 1, &a, &b, &c) && are(30, 0, 0));
    expect("view", delzhomo_view(listing, LENGTH, 2, &a, &b, &c) && are(FRONT + 2 * RECORD, RECORD, 0));
    expect("view, past the end", !delzhomo_view(listing, LENGTH, 4, &a, &b, &c) && are(22, 4, 0));
    expect("resolve, no table", !delzhomo_resolve(listing, LENGTH, marks, 0, code, sizeof code, &a, &b, &c) && are(31, 0, 0));
    expect("a refusal leaves the code", all(code, sizeof code, 0xA5));
    expect("resolve", delzhomo_resolve(listing, LENGTH, marks, 3, code, sizeof code, &a, &b, &c) && are(4, 0, 0));
    const uint8_t *last = code + FRONT + 3 * RECORD;
    expect("the last distance is -7", last[2] == 0xFF && last[3] == 0xF9);
    expect("its node is the While at 10", last[18] == 0 && last[19] == 0 && last[20] == 0 && last[21] == 10);
    strip();
    store(code);
    if (failures == 0) printf("calls.c: every call answers as it should\n");
    return failures != 0;
}
