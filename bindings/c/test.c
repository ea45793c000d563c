/* Calls every function of maluwesi.h but the shelf's. Prints a line for each check that failed, and then how many checks there were. */
#include "check.h"
#include "maluwesi.h"

#include <stdio.h>
#include <string.h>

#define LONGEST 65535
#define ROOM 32
#define UNTOUCHED 0x5A5A5A5A5A5A5A5A
#define UNTOUCHED_BYTE 0x5A

/* ---- the calls, in memory that is filled before; what is lent begins behind the first word or byte */

struct reading {
    uint64_t number;
    size_t ranges, comparators, identifiers;
    uint64_t words[ROOM], ids[ROOM];
};

static struct reading untouched_reading(void)
{
    struct reading r = {UNTOUCHED, UNTOUCHED, UNTOUCHED, UNTOUCHED, {0}, {0}};
    for (size_t i = 0; i < ROOM; i++) {
        r.words[i] = UNTOUCHED;
        r.ids[i] = UNTOUCHED;
    }
    return r;
}

static struct reading counted(const char *text, uint8_t mode)
{
    struct reading r = untouched_reading();
    r.number = maluwesi_count(bytes(text), strlen(text), mode, &r.ranges, &r.comparators, &r.identifiers);
    return r;
}

static struct reading read_into(const char *text, uint8_t mode, size_t words, size_t ids)
{
    struct reading r = untouched_reading();
    r.number = maluwesi_read(bytes(text), strlen(text), mode, r.words + 1, words, r.ids + 1, ids, &r.ranges,
                             &r.comparators, &r.identifiers);
    return r;
}

struct spelling {
    uint64_t number;
    size_t len;
    uint8_t out[ROOM];
};

static struct spelling spelled_into(const char *text, uint8_t mode, size_t lent)
{
    struct spelling s = {UNTOUCHED, UNTOUCHED, {0}};
    memset(s.out, UNTOUCHED_BYTE, ROOM);
    s.number = maluwesi_normal_text(bytes(text), strlen(text), mode, s.out + 1, lent, &s.len);
    return s;
}

static struct spelling measured(const char *text, uint8_t mode, size_t lent)
{
    struct spelling s = {UNTOUCHED, UNTOUCHED, {0}};
    s.number = maluwesi_normal_text_len(bytes(text), strlen(text), mode, lent, &s.len);
    return s;
}

struct verdict {
    uint64_t number;
    uint8_t admitted;
};

static struct verdict asked(const char *text, uint8_t mode, const char *version)
{
    struct verdict v = {UNTOUCHED, UNTOUCHED_BYTE};
    v.number = maluwesi_admit(bytes(text), strlen(text), mode, bytes(version), strlen(version), &v.admitted);
    return v;
}

struct part {
    size_t from, size;
};

static struct part part_of(const char *text, size_t place, size_t len)
{
    struct part p = {UNTOUCHED, UNTOUCHED};
    maluwesi_identifier_bytes(bytes(text), strlen(text), place, len, &p.from, &p.size);
    return p;
}

struct reread {
    struct reading reading;
    uint8_t normal;
    uint8_t out[ROOM];
};

static struct reread reread_into(const char *text, uint8_t mode, uint8_t other, size_t lent, size_t words, size_t ids)
{
    struct reread r = {untouched_reading(), UNTOUCHED_BYTE, {0}};
    memset(r.out, UNTOUCHED_BYTE, ROOM);
    r.reading.number = maluwesi_read_normal_text(bytes(text), strlen(text), mode, other, r.out + 1, lent, r.reading.words + 1,
                                                 words, r.reading.ids + 1, ids, &r.normal, &r.reading.ranges,
                                                 &r.reading.comparators, &r.reading.identifiers);
    return r;
}

struct comparison {
    uint64_t number;
    uint8_t equal;
    uint8_t out[ROOM], out2[ROOM];
};

static struct comparison compared(const char *text, uint8_t mode, const char *text2, uint8_t mode2, size_t lent, size_t lent2)
{
    struct comparison c = {UNTOUCHED, UNTOUCHED_BYTE, {0}, {0}};
    memset(c.out, UNTOUCHED_BYTE, ROOM);
    memset(c.out2, UNTOUCHED_BYTE, ROOM);
    c.number = maluwesi_equal_readings(bytes(text), strlen(text), mode, bytes(text2), strlen(text2), mode2, c.out + 1, lent,
                                       c.out2 + 1, lent2, &c.equal);
    return c;
}

/* ---- what they leave */

static int counts_are(const struct reading *r, size_t ranges, size_t comparators, size_t identifiers)
{
    return r->ranges == ranges && r->comparators == comparators && r->identifiers == identifiers;
}

/* The memory holds these words behind its first one, and is untouched around them. */
static int holds_words(const uint64_t *memory, const uint64_t *words, size_t count)
{
    for (size_t i = 0; i < ROOM; i++) {
        uint64_t expected = i >= 1 && i <= count ? words[i - 1] : UNTOUCHED;
        if (memory[i] != expected)
            return 0;
    }
    return 1;
}

static int holds_bytes(const uint8_t *memory, const char *text)
{
    size_t len = strlen(text);
    for (size_t i = 0; i < ROOM; i++) {
        uint8_t expected = i >= 1 && i <= len ? bytes(text)[i - 1] : UNTOUCHED_BYTE;
        if (memory[i] != expected)
            return 0;
    }
    return 1;
}

/* ---- the checks */

/* Every function refuses this text, whatever is lent, and leaves zeros in the counts and all else as it was. */
static void check_refused(const char *text, uint8_t mode, uint64_t number)
{
    struct reading c = counted(text, mode);
    CHECK(c.number == number);
    CHECK(counts_are(&c, 0, 0, 0));

    struct reading r = read_into(text, mode, ROOM - 2, ROOM - 2);
    CHECK(r.number == number);
    CHECK(counts_are(&r, 0, 0, 0));
    CHECK(holds_words(r.words, NULL, 0));
    CHECK(holds_words(r.ids, NULL, 0));
    CHECK(read_into(text, mode, 0, 0).number == number);

    struct spelling l = measured(text, mode, ROOM - 2);
    CHECK(l.number == number);
    CHECK(l.len == 0);

    struct spelling s = spelled_into(text, mode, ROOM - 2);
    CHECK(s.number == number);
    CHECK(s.len == 0);
    CHECK(holds_bytes(s.out, ""));
    CHECK(spelled_into(text, mode, 0).number == number);

    struct verdict v = asked(text, mode, "1.2.3");
    CHECK(v.number == number);
    CHECK(v.admitted == 0);
    CHECK(asked(text, mode, "none").number == number);

    struct reread n = reread_into(text, mode, MALUWESI_NPM, ROOM - 2, ROOM - 2, ROOM - 2);
    CHECK(n.reading.number == number);
    CHECK(n.normal == 0);
    CHECK(counts_are(&n.reading, 0, 0, 0));
    CHECK(holds_words(n.reading.words, NULL, 0));
    CHECK(holds_words(n.reading.ids, NULL, 0));
    CHECK(holds_bytes(n.out, ""));

    struct comparison first = compared(text, mode, "1,2", MALUWESI_NPM, ROOM - 2, ROOM - 2);
    struct comparison second = compared("1.2.3", MALUWESI_NPM, text, mode, ROOM - 2, ROOM - 2);
    CHECK(first.number == number);
    CHECK(second.number == number);
    CHECK(first.equal == 0 && second.equal == 0);
    CHECK(holds_bytes(first.out, "") && holds_bytes(first.out2, ""));
    CHECK(holds_bytes(second.out, "") && holds_bytes(second.out2, ""));
}

static void check_refusals(void)
{
    static char blanks[LONGEST + 2];
    memset(blanks, ' ', LONGEST + 1);
    check_refused(blanks, MALUWESI_CARGO, MALUWESI_TOO_LONG);
    check_refused("1,2", MALUWESI_CARGO, MALUWESI_NO_READING);
    check_refused("1.2.3-1a", MALUWESI_NPM, MALUWESI_NO_READING);
    check_refused("1.2.3-\xFF", MALUWESI_NPM, MALUWESI_NO_READING);
    check_refused("18446744073709551616 1a", MALUWESI_NPM, MALUWESI_NO_READING);
    check_refused("18446744073709551616", MALUWESI_NPM, MALUWESI_TOO_LARGE);
    check_refused("18446744073709551615 18446744073709551616", MALUWESI_NPM, MALUWESI_TOO_LARGE);
    check_refused("1.0.0 - 18446744073709551615", MALUWESI_CARGO, MALUWESI_OVER);
    check_refused("0.0.18446744073709551615", MALUWESI_CARGO, MALUWESI_OVER);
    check_refused("1.2.3", 2, MALUWESI_NO_MODE);
    check_refused("1.2.3", 255, MALUWESI_NO_MODE);
    check_refused(blanks, 2, MALUWESI_NO_MODE);
}

static void check_count(const char *text, uint8_t mode, size_t ranges, size_t comparators, size_t identifiers)
{
    struct reading c = counted(text, mode);
    CHECK(c.number == MALUWESI_OK);
    CHECK(counts_are(&c, ranges, comparators, identifiers));
}

static void check_counts(void)
{
    static char blanks[LONGEST + 1];
    memset(blanks, ' ', LONGEST);
    check_count(blanks, MALUWESI_NPM, 1, 1, 0);
    check_count("", MALUWESI_CARGO, 1, 1, 0);
    check_count("||", MALUWESI_NPM, 2, 2, 0);
    check_count("1.2.3", MALUWESI_CARGO, 1, 2, 0);
    check_count("1.2.3", MALUWESI_NPM, 1, 1, 0);
    check_count("0.0.18446744073709551615", MALUWESI_NPM, 1, 1, 0);
    check_count("1.2.3-a.7 - 2 || <1.0.0+b", MALUWESI_NPM, 2, 3, 3);
}

/* It has three comparator rows and three identifier rows. */
#define ROWS_TEXT "1.2.3-a.7 - 2.x||=4.5.6-18446744073709551616"
#define ROWS_WORDS (3 * MALUWESI_COMPARATOR_WORDS)

static void check_rows(void)
{
    static const char text[] = ROWS_TEXT;
    static const uint64_t words[] = {0, 3, 1, 2, 3, 2, 0, 15, 0, 0, 3, 0, 0, 0, 0, 15, 1, 4, 4, 5, 6, 1, 17, 27};
    static const uint64_t ids[] = {1, 6, 1, 0, 7, 0, 1, 24, 20};

    struct reading exact = read_into(text, MALUWESI_NPM, ROWS_WORDS, 9);
    CHECK(exact.number == MALUWESI_OK);
    CHECK(counts_are(&exact, 2, 3, 3));
    CHECK(holds_words(exact.words, words, ROWS_WORDS));
    CHECK(holds_words(exact.ids, ids, 9));

    struct reading roomy = read_into(text, MALUWESI_NPM, ROWS_WORDS + 7, 13);
    CHECK(roomy.number == MALUWESI_OK);
    CHECK(counts_are(&roomy, 2, 3, 3));
    CHECK(holds_words(roomy.words, words, ROWS_WORDS));
    CHECK(holds_words(roomy.ids, ids, 9));
}

static void check_short_rows(size_t words, size_t ids, uint64_t number)
{
    static const char text[] = ROWS_TEXT;
    struct reading r = read_into(text, MALUWESI_NPM, words, ids);
    CHECK(r.number == number);
    CHECK(counts_are(&r, 0, 0, 0));
    CHECK(holds_words(r.words, NULL, 0));
    CHECK(holds_words(r.ids, NULL, 0));
}

static void check_all_short_rows(void)
{
    check_short_rows(ROWS_WORDS - 1, 9, MALUWESI_COMPARATORS_SHORT);
    check_short_rows(0, 9, MALUWESI_COMPARATORS_SHORT);
    check_short_rows(ROWS_WORDS - 1, 8, MALUWESI_COMPARATORS_SHORT);
    check_short_rows(ROWS_WORDS, 8, MALUWESI_IDENTIFIERS_SHORT);
    check_short_rows(ROWS_WORDS + 7, 0, MALUWESI_IDENTIFIERS_SHORT);
}

static void check_part(size_t place, size_t len, size_t from, size_t size)
{
    static const char text[] = ROWS_TEXT;
    struct part p = part_of(text, place, len);
    CHECK(p.from == from);
    CHECK(p.size == size);
}

/* The text has 44 bytes: its last identifier is the 20 bytes from byte 24 on. */
static void check_parts(void)
{
    check_part(6, 1, 6, 1);
    check_part(24, 20, 24, 20);
    check_part(24, 21, 0, 0);
    check_part(0, 44, 0, 44);
    check_part(0, 45, 0, 0);
    check_part(43, 1, 43, 1);
    check_part(44, 0, 0, 0);
    check_part(44, 1, 0, 0);
    check_part(45, 0, 0, 0);
    check_part(10, 0, 0, 0);
    check_part(SIZE_MAX, 1, 0, 0);
    check_part(1, SIZE_MAX, 0, 0);
    check_part(SIZE_MAX, SIZE_MAX, 0, 0);
    check_part(24, SIZE_MAX - 23, 0, 0);
}

static void check_normal_text(const char *text, uint8_t mode, const char *normal)
{
    size_t len = strlen(normal);
    size_t lent[] = {len, ROOM - 2};
    for (size_t i = 0; i < 2; i++) {
        struct spelling s = spelled_into(text, mode, lent[i]);
        CHECK(s.number == MALUWESI_OK);
        CHECK(s.len == len);
        CHECK(holds_bytes(s.out, normal));
        struct spelling l = measured(text, mode, lent[i]);
        CHECK(l.number == MALUWESI_OK);
        CHECK(l.len == len);
    }
    CHECK(measured(text, mode, SIZE_MAX).len == len);

    struct spelling s = spelled_into(text, mode, len - 1);
    CHECK(s.number == MALUWESI_BYTES_SHORT);
    CHECK(s.len == 0);
    CHECK(holds_bytes(s.out, ""));
    struct spelling l = measured(text, mode, len - 1);
    CHECK(l.number == MALUWESI_BYTES_SHORT);
    CHECK(l.len == 0);
}

static void check_normal_texts(void)
{
    check_normal_text("", MALUWESI_CARGO, ">=0.0.0");
    check_normal_text("||", MALUWESI_NPM, ">=0.0.0 || >=0.0.0");
    check_normal_text("1.2.3", MALUWESI_CARGO, ">=1.2.3 <2.0.0");
    check_normal_text("1.2.3", MALUWESI_NPM, "=1.2.3");
    check_normal_text("* - 2", MALUWESI_NPM, "<3.0.0");
    check_normal_text("1.2.3+b7.0", MALUWESI_NPM, "=1.2.3-b7.0");
    check_normal_text("1.x.18446744073709551616", MALUWESI_NPM, ">=1.0.0 <2.0.0");
}

static void check_verdict(const char *text, const char *version, uint64_t number, uint8_t admitted)
{
    struct verdict v = asked(text, MALUWESI_NPM, version);
    CHECK(v.number == number);
    CHECK(v.admitted == admitted);
}

static void check_verdicts(void)
{
    static char long_version[LONGEST + 2] = "1.2.3-";
    memset(long_version + 6, 'a', LONGEST - 5);
    check_verdict("*", long_version, MALUWESI_NO_VERSION, 0);
    long_version[LONGEST] = '\0';
    check_verdict("*", long_version, MALUWESI_OK, 1);
    check_verdict("^1.2.3-a || 1.0.x", "1.2.3", MALUWESI_OK, 1);
    check_verdict("^1.2.3-a || 1.0.x", "2.0.0", MALUWESI_OK, 0);
    check_verdict("^1.2.3-a || 1.0.x", "2.0.0-rc.1", MALUWESI_OK, 1);
    check_verdict("*", "1.2", MALUWESI_NO_VERSION, 0);
    check_verdict("*", "", MALUWESI_NO_VERSION, 0);
    check_verdict("*", "1.18446744073709551616.0", MALUWESI_VERSION_TOO_LARGE, 0);
    check_verdict("*", "1.18446744073709551616", MALUWESI_NO_VERSION, 0);
    check_verdict("*", "1.18446744073709551615.0", MALUWESI_OK, 1);
}

/* Its normal text, of 18 bytes, has two comparator rows and two identifier rows. */
#define REREAD_TEXT "1.2.3-a.7 - 2"
#define REREAD_NORMAL ">=1.2.3-a.7 <3.0.0"
#define REREAD_WORDS (2 * MALUWESI_COMPARATOR_WORDS)

static void check_reread(void)
{
    static const char text[] = REREAD_TEXT;
    static const uint64_t words[] = {0, 3, 1, 2, 3, 2, 0, 11, 0, 0, 3, 0, 0, 0, 12, 6};
    static const uint64_t ids[] = {1, 8, 1, 0, 7, 0};
    size_t len = strlen(REREAD_NORMAL);
    struct {
        size_t lent, words, ids;
    } lent[] = {{len, REREAD_WORDS, 6}, {ROOM - 2, REREAD_WORDS + 7, 8}};
    for (size_t i = 0; i < 2; i++) {
        for (uint8_t other = 0; other < 2; other++) {
            struct reread r = reread_into(text, MALUWESI_CARGO, other, lent[i].lent, lent[i].words, lent[i].ids);
            CHECK(r.reading.number == MALUWESI_OK);
            CHECK(r.normal == 0);
            CHECK(counts_are(&r.reading, 1, 2, 2));
            CHECK(holds_bytes(r.out, REREAD_NORMAL));
            CHECK(holds_words(r.reading.words, words, REREAD_WORDS));
            CHECK(holds_words(r.reading.ids, ids, 6));
        }
    }
}

static void check_short_reread(size_t lent, size_t words, size_t ids, uint8_t other, uint64_t number, uint8_t normal)
{
    static const char text[] = REREAD_TEXT;
    struct reread r = reread_into(text, MALUWESI_CARGO, other, lent, words, ids);
    CHECK(r.reading.number == number);
    CHECK(r.normal == normal);
    CHECK(counts_are(&r.reading, 0, 0, 0));
    CHECK(holds_bytes(r.out, ""));
    CHECK(holds_words(r.reading.words, NULL, 0));
    CHECK(holds_words(r.reading.ids, NULL, 0));
}

static void check_short_rereads(void)
{
    size_t len = strlen(REREAD_NORMAL);
    check_short_reread(len - 1, REREAD_WORDS - 1, 5, MALUWESI_NPM, MALUWESI_BYTES_SHORT, 0);
    check_short_reread(len, REREAD_WORDS - 1, 5, MALUWESI_NPM, MALUWESI_COMPARATORS_SHORT, 1);
    check_short_reread(len, REREAD_WORDS, 5, MALUWESI_NPM, MALUWESI_IDENTIFIERS_SHORT, 1);
    check_short_reread(len, REREAD_WORDS, 6, 2, MALUWESI_NO_MODE, 0);
}

/* A text that is accepted, and whose normal text is too long to be read. */
static void check_long_normal_text(void)
{
    static char text[LONGEST + 1];
    static uint8_t out[8 * LONGEST + 7];
    for (size_t i = 0; i < LONGEST; i++)
        text[i] = i % 2 == 0 ? '9' : ' ';
    size_t ranges, comparators, identifiers, len;
    uint8_t normal;
    uint64_t none[1];
    CHECK(maluwesi_normal_text(bytes(text), LONGEST, MALUWESI_NPM, out, sizeof out, &len) == MALUWESI_OK);
    CHECK(len == sizeof out);
    CHECK(maluwesi_count(out, len, MALUWESI_NPM, &ranges, &comparators, &identifiers) == MALUWESI_TOO_LONG);
    CHECK(maluwesi_read_normal_text(bytes(text), LONGEST, MALUWESI_NPM, MALUWESI_NPM, out, sizeof out, none, 0, none, 0, &normal,
                                    &ranges, &comparators, &identifiers) == MALUWESI_TOO_LONG);
    CHECK(normal == 1);
}

static void check_equal(const char *text, uint8_t mode, const char *text2, uint8_t mode2, uint8_t equal, const char *normal,
                        const char *normal2)
{
    struct comparison c = compared(text, mode, text2, mode2, strlen(normal), strlen(normal2));
    CHECK(c.number == MALUWESI_OK);
    CHECK(c.equal == equal);
    CHECK(holds_bytes(c.out, normal));
    CHECK(holds_bytes(c.out2, normal2));
    CHECK(compared(text, mode, text2, mode2, ROOM - 2, ROOM - 2).equal == equal);

    struct comparison first = compared(text, mode, text2, mode2, strlen(normal) - 1, ROOM - 2);
    struct comparison second = compared(text, mode, text2, mode2, ROOM - 2, strlen(normal2) - 1);
    CHECK(first.number == MALUWESI_BYTES_SHORT && first.equal == 0);
    CHECK(second.number == MALUWESI_BYTES_SHORT && second.equal == 0);
    CHECK(holds_bytes(first.out, "") && holds_bytes(first.out2, ""));
    CHECK(holds_bytes(second.out, "") && holds_bytes(second.out2, ""));
}

static void check_equals(void)
{
    check_equal("^1.2.3", MALUWESI_CARGO, ">=1.2.3 <2", MALUWESI_NPM, 1, ">=1.2.3 <2.0.0", ">=1.2.3 <2.0.0");
    check_equal("1.2.3", MALUWESI_CARGO, "1.2.3", MALUWESI_NPM, 0, ">=1.2.3 <2.0.0", "=1.2.3");
    check_equal("1.2.3+b", MALUWESI_NPM, "=1.2.3-b", MALUWESI_CARGO, 1, "=1.2.3-b", "=1.2.3-b");
    check_equal(">1.2.3", MALUWESI_NPM, ">1.2.4", MALUWESI_NPM, 0, ">1.2.3", ">1.2.4");
}

int main(void)
{
    check_refusals();
    check_counts();
    check_rows();
    check_all_short_rows();
    check_parts();
    check_normal_texts();
    check_verdicts();
    check_reread();
    check_short_rereads();
    check_long_normal_text();
    check_equals();
    printf("%u checks, %u failed\n", checks, failed);
    return failed != 0;
}
