/* Calls the shelf's functions of maluwesi.h, with memory compared byte by byte. Prints a line for each check that failed, and then how many checks
 * there were. */
#include "check.h"
#include "maluwesi.h"

#include <stdio.h>
#include <string.h>

#define SIZE MALUWESI_SHELF_BYTES
#define ENTRY 100
#define ENTRIES 256
#define KEPT (2 + ENTRIES * ENTRY)
#define KEPT_WIDTH 48
#define UNTOUCHED 0x5A
#define UNTOUCHED_CODE 0x5A5A

/* The shelf, what it should be, and a byte more on each side that no call may touch. */
static uint8_t around[SIZE + 2], expected[SIZE + 2];
static uint8_t *const shelf = around + 1, *const wanted = expected + 1;

static int as_expected(void)
{
    return memcmp(around, expected, sizeof around) == 0;
}

/* The same bytes in both. */
static void fill(int byte)
{
    memset(around, byte, sizeof around);
    memset(expected, byte, sizeof expected);
}

static void put_count(uint8_t *memory, unsigned count)
{
    memory[0] = count % 256;
    memory[1] = count / 256;
}

static void put_entry(uint8_t *memory, unsigned place, uint16_t code, uint8_t mode, const char *text)
{
    uint8_t *entry = memory + 2 + ENTRY * place;
    memset(entry, 0, ENTRY);
    entry[0] = code % 256;
    entry[1] = code / 256;
    entry[2] = mode;
    entry[3] = (uint8_t)strlen(text);
    memcpy(entry + 4, text, strlen(text));
}

/* The lowest and the highest triple of an entry, low bytes first. */
static void put_kept(uint8_t *memory, unsigned place, const uint64_t *six)
{
    uint8_t *kept = memory + KEPT + KEPT_WIDTH * place;
    for (unsigned i = 0; i < KEPT_WIDTH; i++)
        kept[i] = six[i / 8] >> 8 * (i % 8) & 0xFF;
}

static const uint64_t of_caret[] = {1, 2, 3, 2, 0, 0}, of_one[] = {1, 0, 0, 2, 0, 0}, of_two[] = {2, 0, 0, 3, 0, 0},
                      of_all[] = {0, 0, 0, UINT64_MAX, UINT64_MAX, UINT64_MAX}, of_none[] = {0, 0, 0, 0, 0, 0};

static uint64_t added(uint16_t code, uint8_t mode, const char *text)
{
    return maluwesi_shelf_add(shelf, SIZE, code, mode, bytes(text), strlen(text));
}

struct part {
    uint64_t number;
    size_t place, len;
};

static struct part found(uint16_t code)
{
    struct part p = {UNTOUCHED, UNTOUCHED, UNTOUCHED};
    p.number = maluwesi_shelf_find(shelf, SIZE, code, &p.place, &p.len);
    return p;
}

static int part_is(struct part p, uint64_t number, size_t place, size_t len)
{
    return p.number == number && p.place == place && p.len == len;
}

struct fit {
    uint64_t number;
    uint8_t found;
    uint16_t code;
};

static struct fit fitting(const char *version)
{
    struct fit f = {UNTOUCHED, UNTOUCHED, UNTOUCHED_CODE};
    f.number = maluwesi_shelf_first_fit(shelf, SIZE, bytes(version), strlen(version), &f.found, &f.code);
    return f;
}

static struct fit looked_up(const char *version)
{
    struct fit f = {UNTOUCHED, UNTOUCHED, UNTOUCHED_CODE};
    f.number = maluwesi_shelf_lookup(shelf, SIZE, bytes(version), strlen(version), &f.found, &f.code);
    return f;
}

static int fit_is(struct fit f, uint64_t number, uint8_t one, uint16_t code)
{
    return f.number == number && f.found == one && f.code == code;
}

/* Both calls, which agree on a shelf that calls built. */
static int both_are(const char *version, uint64_t number, uint8_t one, uint16_t code)
{
    return fit_is(fitting(version), number, one, code) && fit_is(looked_up(version), number, one, code);
}

/* ---- the checks */

static void check_entries(void)
{
    static const char text[] = "entries";
    fill(UNTOUCHED);
    memset(wanted, 0, SIZE);
    CHECK(maluwesi_shelf_clear(shelf, SIZE) == MALUWESI_OK);
    CHECK(as_expected());
    CHECK(both_are("1.2.3", MALUWESI_OK, 0, 0));

    put_count(wanted, 1);
    put_entry(wanted, 0, 7, MALUWESI_NPM, "^1.2.3");
    put_kept(wanted, 0, of_caret);
    CHECK(added(7, MALUWESI_NPM, "^1.2.3") == MALUWESI_OK);
    CHECK(as_expected());
    put_count(wanted, 2);
    put_entry(wanted, 1, 258, MALUWESI_CARGO, "2");
    put_kept(wanted, 1, of_two);
    CHECK(added(258, MALUWESI_CARGO, "2") == MALUWESI_OK);
    CHECK(as_expected());

    CHECK(part_is(found(7), MALUWESI_OK, 6, 6));
    CHECK(part_is(found(258), MALUWESI_OK, 106, 1));
    CHECK(part_is(found(2), MALUWESI_CODE, 0, 0));
    CHECK(both_are("1.2.3", MALUWESI_OK, 1, 7));
    CHECK(both_are("2.0.0-rc.1", MALUWESI_OK, 1, 7));
    CHECK(both_are("2.0.0", MALUWESI_OK, 1, 258));
    CHECK(both_are("3.0.0", MALUWESI_OK, 0, 0));
    CHECK(as_expected());

    put_count(wanted, 1);
    put_entry(wanted, 0, 258, MALUWESI_CARGO, "2");
    memset(wanted + 2 + ENTRY, 0, ENTRY);
    put_kept(wanted, 0, of_two);
    put_kept(wanted, 1, of_none);
    CHECK(maluwesi_shelf_remove(shelf, SIZE, 7) == MALUWESI_OK);
    CHECK(as_expected());
    CHECK(maluwesi_shelf_remove(shelf, SIZE, 7) == MALUWESI_CODE);
    CHECK(as_expected());
}

/* Each refusal of an add to a shelf that has the code 7; nothing changes. */
static void check_refused_adds(const char *text)
{
    static char blanks[98];
    memset(blanks, ' ', 97);
    CHECK(added(7, 2, "!") == MALUWESI_NO_MODE);
    CHECK(added(7, MALUWESI_NPM, blanks) == MALUWESI_TOO_LONG);
    CHECK(added(7, MALUWESI_NPM, "1a") == MALUWESI_NO_READING);
    CHECK(added(7, MALUWESI_NPM, "18446744073709551616") == MALUWESI_TOO_LARGE);
    CHECK(added(7, MALUWESI_NPM, "18446744073709551615") == MALUWESI_OVER);
    CHECK(added(7, MALUWESI_NPM, "1") == MALUWESI_CODE);
    CHECK(as_expected());
}

static void check_full(void)
{
    static const char text[] = "full";
    static char blanks[97];
    fill(0);
    for (unsigned i = 0; i < ENTRIES; i++)
        CHECK(added(i, MALUWESI_NPM, "1") == MALUWESI_OK);
    put_count(wanted, ENTRIES);
    for (unsigned i = 0; i < ENTRIES; i++) {
        put_entry(wanted, i, i, MALUWESI_NPM, "1");
        put_kept(wanted, i, of_one);
    }
    CHECK(as_expected());
    check_refused_adds(text);
    CHECK(added(256, MALUWESI_NPM, "1") == MALUWESI_FULL);
    CHECK(as_expected());

    /* the middle one goes, and its space serves again, for a text of 96 bytes */
    CHECK(maluwesi_shelf_remove(shelf, SIZE, 128) == MALUWESI_OK);
    memset(blanks, ' ', 96);
    CHECK(added(256, MALUWESI_CARGO, blanks) == MALUWESI_OK);
    for (unsigned i = 128; i < 255; i++)
        put_entry(wanted, i, i + 1, MALUWESI_NPM, "1");
    put_entry(wanted, 255, 256, MALUWESI_CARGO, blanks);
    put_kept(wanted, 255, of_all);
    CHECK(as_expected());
    CHECK(both_are("2.0.0", MALUWESI_OK, 1, 256));
}

/* Memory that is no shelf: of another length, or with a count of 257. */
static void check_no_shelf(void)
{
    static const char text[] = "no shelf";
    size_t lengths[] = {0, 2, KEPT, SIZE - 1, SIZE + 1};
    fill(0);
    for (size_t i = 0; i < sizeof lengths / sizeof *lengths; i++) {
        size_t place = UNTOUCHED, len = UNTOUCHED;
        uint8_t one = UNTOUCHED;
        uint16_t code = UNTOUCHED_CODE;
        CHECK(maluwesi_shelf_clear(shelf, lengths[i]) == MALUWESI_NOT_SHELF);
        CHECK(maluwesi_shelf_add(shelf, lengths[i], 7, MALUWESI_NPM, bytes("!"), 1) == MALUWESI_NOT_SHELF);
        CHECK(maluwesi_shelf_remove(shelf, lengths[i], 7) == MALUWESI_NOT_SHELF);
        CHECK(maluwesi_shelf_find(shelf, lengths[i], 7, &place, &len) == MALUWESI_NOT_SHELF);
        CHECK(place == 0 && len == 0);
        CHECK(maluwesi_shelf_first_fit(shelf, lengths[i], bytes("none"), 4, &one, &code) == MALUWESI_NOT_SHELF);
        CHECK(one == 0 && code == 0);
        one = UNTOUCHED;
        code = UNTOUCHED_CODE;
        CHECK(maluwesi_shelf_lookup(shelf, lengths[i], bytes("none"), 4, &one, &code) == MALUWESI_NOT_SHELF);
        CHECK(one == 0 && code == 0);
        CHECK(as_expected());
    }
    put_count(shelf, 257);
    put_count(wanted, 257);
    CHECK(added(7, MALUWESI_NPM, "!") == MALUWESI_NOT_SHELF);
    CHECK(maluwesi_shelf_remove(shelf, SIZE, 0) == MALUWESI_NOT_SHELF);
    CHECK(part_is(found(0), MALUWESI_NOT_SHELF, 0, 0));
    CHECK(both_are("none", MALUWESI_NOT_SHELF, 0, 0));
    CHECK(as_expected());
    CHECK(maluwesi_shelf_clear(shelf, SIZE) == MALUWESI_OK);
    put_count(wanted, 0);
    CHECK(as_expected());
}

/* Entries that no call makes: another mode, a length over 96, a text without a reading; equal codes. Their triples are taken as they stand: first those
 * that enclose every version, then for the last but one those that enclose none of its own. */
static void check_made_memory(void)
{
    static const char text[] = "made memory";
    fill(0);
    put_count(shelf, 5);
    put_entry(shelf, 0, 7, 2, "");
    put_entry(shelf, 1, 8, MALUWESI_NPM, "");
    shelf[2 + ENTRY + 3] = 97;
    put_entry(shelf, 2, 9, MALUWESI_NPM, "!");
    put_entry(shelf, 3, 10, MALUWESI_NPM, "1");
    put_entry(shelf, 4, 10, MALUWESI_NPM, "2");
    for (unsigned i = 0; i < 5; i++)
        put_kept(shelf, i, of_all);
    memcpy(expected, around, sizeof around);
    CHECK(part_is(found(7), MALUWESI_OK, 6, 0));
    CHECK(part_is(found(8), MALUWESI_OK, 106, 0));
    CHECK(part_is(found(9), MALUWESI_OK, 206, 1));
    CHECK(part_is(found(10), MALUWESI_OK, 306, 1));
    CHECK(both_are("1.0.0", MALUWESI_OK, 1, 10));
    CHECK(both_are("2.0.0", MALUWESI_OK, 1, 10));
    CHECK(both_are("3.0.0", MALUWESI_OK, 0, 0));
    CHECK(both_are("3.0", MALUWESI_NO_VERSION, 0, 0));
    CHECK(both_are("18446744073709551616.0.0", MALUWESI_VERSION_TOO_LARGE, 0, 0));
    CHECK(added(8, MALUWESI_NPM, "1") == MALUWESI_CODE);
    CHECK(as_expected());

    put_kept(shelf, 3, of_two);
    put_kept(wanted, 3, of_two);
    CHECK(fit_is(fitting("1.0.0"), MALUWESI_OK, 1, 10));
    CHECK(fit_is(looked_up("1.0.0"), MALUWESI_OK, 0, 0));
    CHECK(as_expected());

    put_count(wanted, 4);
    put_entry(wanted, 3, 10, MALUWESI_NPM, "2");
    memset(wanted + 2 + 4 * ENTRY, 0, ENTRY);
    put_kept(wanted, 3, of_all);
    put_kept(wanted, 4, of_none);
    CHECK(maluwesi_shelf_remove(shelf, SIZE, 10) == MALUWESI_OK);
    CHECK(as_expected());
    check_refused_adds(text);
}

int main(void)
{
    check_entries();
    check_full();
    check_no_shelf();
    check_made_memory();
    printf("%u checks of the shelf, %u failed\n", checks, failed);
    return failed != 0;
}
