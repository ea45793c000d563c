/* Maluwesi: version ranges read, spelled and asked whether they admit a version, and a shelf of them.
 *
 * Link target/staticlib/libmaluwesi.a, which `bindings/archive` proves and writes. The functions are those that crates/maluwesi_c/src/lib.rt,
 * crates/maluwesi_equality_c/src/lib.rt and crates/maluwesi_shelf_c/src/lib.rt export, where each stands with what is proved of it; docs/USERS.md
 * has the rows, the operators' codes, the shelf's bytes and the refusals with examples.
 *
 * What is asked of the caller, since C cannot ask it: no pointer is null, even where its length is 0; a length counts what may be read or written
 * at its pointer; and what a call writes overlaps nothing else that it is given. All else is tested: any bytes may stand in a text.
 */
#ifndef MALUWESI_H
#define MALUWESI_H

#include <stddef.h>
#include <stdint.h>

#ifdef __cplusplus
extern "C" {
#endif

/* The modes. */
#define MALUWESI_CARGO 0
#define MALUWESI_NPM 1

/* What a call returns: 0, or why it refused. A call that refuses leaves 0 where it would leave a count, a length, a place, a code or its yes, and
 * changes nothing else. */
#define MALUWESI_OK 0
#define MALUWESI_TOO_LONG 1          /* the range text is longer than 65,535 bytes */
#define MALUWESI_NO_READING 2        /* the range text has no reading */
#define MALUWESI_TOO_LARGE 3         /* a component exceeds 18446744073709551615 */
#define MALUWESI_OVER 4              /* an expansion would add one to 18446744073709551615 */
#define MALUWESI_COMPARATORS_SHORT 5 /* the comparator words are too few */
#define MALUWESI_IDENTIFIERS_SHORT 6 /* the identifier words are too few */
#define MALUWESI_BYTES_SHORT 7       /* the bytes for the normal text are too few */
#define MALUWESI_NO_VERSION 8        /* the version text is no version, or longer than 65,535 bytes */
#define MALUWESI_VERSION_TOO_LARGE 9 /* the version's major, minor or patch exceeds 18446744073709551615 */
#define MALUWESI_NOT_SHELF 10        /* the memory has not a shelf's length, or its count is over 256 */
#define MALUWESI_FULL 11             /* the shelf has 256 entries */
#define MALUWESI_CODE 12             /* the part code is there already on add, or missing on remove or find */
#define MALUWESI_NO_MODE 255         /* the mode is neither of the two */

/* A comparator's row: range, operator, major, minor, patch, number of identifiers, and where in the text the item begins that it came from, and that
 * item's length. An identifier's row: kind, number or place, 0 or length. */
#define MALUWESI_COMPARATOR_WORDS 8
#define MALUWESI_IDENTIFIER_WORDS 3

/* How many ranges, comparator rows and identifier rows the text has. Refuses with 1 to 4. */
uint64_t maluwesi_count(const uint8_t *text, size_t text_len, uint8_t mode,
                        size_t *ranges, size_t *comparators, size_t *identifiers);

/* The same, and the rows, from the start of words and of ids; what stands behind them stays. Refuses with 1 to 6. */
uint64_t maluwesi_read(const uint8_t *text, size_t text_len, uint8_t mode,
                       uint64_t *words, size_t words_len, uint64_t *ids, size_t ids_len,
                       size_t *ranges, size_t *comparators, size_t *identifiers);

/* Where in the text the bytes of a text identifier begin, and how many they are: place and len are the second and the third word of its row, or the
 * seventh and the eighth of a comparator's, for its item. Where they pass the end of the text, the empty part: 0 and 0. It never refuses. */
void maluwesi_identifier_bytes(const uint8_t *text, size_t text_len, size_t place, size_t len, size_t *from, size_t *size);

/* How long the normal text is, if so many bytes were lent for it. Refuses with 1 to 4 and 7. At most 8 * text_len + 7 are needed. */
uint64_t maluwesi_normal_text_len(const uint8_t *text, size_t text_len, uint8_t mode, size_t lent, size_t *len);

/* The same, and the normal text, from the start of out; what stands behind it stays. */
uint64_t maluwesi_normal_text(const uint8_t *text, size_t text_len, uint8_t mode,
                              uint8_t *out, size_t out_len, size_t *len);

/* Whether the range text admits the version: 1 or 0 in admitted. Refuses with 1 to 4, 8 and 9. */
uint64_t maluwesi_admit(const uint8_t *text, size_t text_len, uint8_t mode,
                        const uint8_t *version, size_t version_len, uint8_t *admitted);

/* Writes the normal text under mode, from the start of out, and reads it under other: its counts and its rows, whose places are places in the normal
 * text. They are the counts of the text itself, and the readings are equal. Refuses with 1 to 4 and 7 for the text, with 0 in normal, and with 1, 5
 * and 6 for its normal text, with 1 in normal; what is lent stays as it was then. */
uint64_t maluwesi_read_normal_text(const uint8_t *text, size_t text_len, uint8_t mode, uint8_t other,
                                   uint8_t *out, size_t out_len,
                                   uint64_t *words, size_t words_len, uint64_t *ids, size_t ids_len, uint8_t *normal,
                                   size_t *ranges, size_t *comparators, size_t *identifiers);

/* Whether the readings of two texts, each under its mode, are equal: 1 or 0 in equal. Writes both normal texts, from the start of out and of out2.
 * Refuses with 1 to 4 and 7, for the first text before the second. */
uint64_t maluwesi_equal_readings(const uint8_t *text, size_t text_len, uint8_t mode,
                                 const uint8_t *text2, size_t text2_len, uint8_t mode2,
                                 uint8_t *out, size_t out_len, uint8_t *out2, size_t out2_len, uint8_t *equal);

/* ---- a shelf of at most 256 entries, each a part code, a mode and a range text of at most 96 bytes, in lent memory. With each entry stand the lowest
 * and the highest triple of its text, by which the lookup goes. */

#define MALUWESI_SHELF_BYTES 37890

/* Makes it empty: zeros in all bytes. Refuses with 10, by the length alone. */
uint64_t maluwesi_shelf_clear(uint8_t *shelf, size_t shelf_len);

/* Puts an entry behind the others. Refuses with 10; then 1 to 4 for the text, with 96 bytes as its limit; then 12, then 11. */
uint64_t maluwesi_shelf_add(uint8_t *shelf, size_t shelf_len, uint16_t code, uint8_t mode,
                            const uint8_t *text, size_t text_len);

/* Removes the first entry with the code; those behind it move up. Refuses with 10 and 12. */
uint64_t maluwesi_shelf_remove(uint8_t *shelf, size_t shelf_len, uint16_t code);

/* The listing: where in the shelf the text of the first entry with the code stands, and how long it is. Refuses with 10 and 12. */
uint64_t maluwesi_shelf_find(const uint8_t *shelf, size_t shelf_len, uint16_t code, size_t *place, size_t *len);

/* First fit: the code of the first entry whose text admits the version, with 1 in found; where none does, 0 in both, and that is no refusal.
 * Refuses with 10, 8 and 9. */
uint64_t maluwesi_shelf_first_fit(const uint8_t *shelf, size_t shelf_len, const uint8_t *version, size_t version_len,
                                  uint8_t *found, uint16_t *code);

/* The lookup: as first fit, but only an entry whose triples enclose the version's is asked. On a shelf that these functions built from an empty one the
 * answer is first fit's, some twenty times faster where few entries come near; in other memory the triples are taken as they stand. Refuses with 10, 8
 * and 9. */
uint64_t maluwesi_shelf_lookup(const uint8_t *shelf, size_t shelf_len, const uint8_t *version, size_t version_len,
                               uint8_t *found, uint16_t *code);

#ifdef __cplusplus
}
#endif

#endif
