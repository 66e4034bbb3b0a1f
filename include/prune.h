/* Prune rules: reading, deciding, checking, judging, printing.
 *
 * Each call answers number * 2^32 + value. The number is 0 where the call is accepted, and the value is then as said below;
 * otherwise the number is the refusal's (1 to 22) and the value its place. A refusal writes nothing. An accepted call that fills a
 * buffer changes nothing beyond the length that it answers. Lengths are in bytes; where one is 0, its pointer may be anything, null too.
 * What a call asks of its caller is what C asks: that the memory is there, and that a buffer that is written to overlaps no other.
 * Whatever the bytes are, the call ends with an answer. Nothing is kept between calls and nothing is allocated, so any number of
 * threads may call at the same time.
 *
 * A table of stores is these bytes, in this order, and nothing else:
 *   count        2 bytes, low byte first: how many stores, at most 64
 *   total        2 bytes, low byte first: how many bytes their names have together
 *   modes        a byte for each store: PRUNE_READ_WRITE, PRUNE_READ_ONLY or PRUNE_WRITE_ONLY
 *   lengths      a byte for each store: the length of its name
 *   names        the names, one after the other, of ASCII bytes
 * So nas (read-write) and vault (write-only) are 2 0, 8 0, 0 2, 3 5, nasvault. A confirmed list has the same layout, with all modes 0: that
 * nas has confirmed is 1 0, 3 0, 0, 3, nas.
 */
#ifndef PRUNE_H
#define PRUNE_H

#include <stddef.h>
#include <stdint.h>

#ifdef __cplusplus
extern "C" {
#endif

/* A buffer of this length holds the image of every text that reads. */
#define PRUNE_IMAGE_BYTES 26628

/* A buffer of this length holds the text of every image: printing into it is never refused with 1. */
#define PRUNE_TEXT_BYTES 90026

/* The number and the value of an answer. */
#define PRUNE_NUMBER(answer) ((uint32_t)((answer) >> 32))
#define PRUNE_VALUE(answer) ((uint32_t)(answer))

/* The modes of a store. */
#define PRUNE_READ_WRITE 0
#define PRUNE_READ_ONLY 1
#define PRUNE_WRITE_ONLY 2

/* The refusals; docs/REFUSALS.md has each with an example. */
#define PRUNE_SHORT_BUFFER 1
#define PRUNE_LONG_TEXT 2
#define PRUNE_FOREIGN_BYTE 3
#define PRUNE_HALF_SIGN 4
#define PRUNE_OPEN_QUOTE 5
#define PRUNE_STRAY_CHARACTER 6
#define PRUNE_NO_EXPRESSION 7
#define PRUNE_BRACKET_EXPECTED 8
#define PRUNE_TRAILING_TOKEN 9
#define PRUNE_UNKNOWN_FUNCTION 10
#define PRUNE_MISSING_ARGUMENT 11
#define PRUNE_BAD_COUNT 12
#define PRUNE_BAD_DURATION 13
#define PRUNE_EMPTY_LIST 14
#define PRUNE_TOO_DEEP 15
#define PRUNE_BAD_IMAGE 16
#define PRUNE_BAD_STORE_TABLE 17
#define PRUNE_TWIN_NAME 18
#define PRUNE_BAD_CONFIRMED_LIST 19
#define PRUNE_UNKNOWN_STORE 20
#define PRUNE_UNCONFIRMED 21
#define PRUNE_ARCHIVE_ONLY 22

/* Reads a rule's text into an image. Value: the image's length. Refusals: 1 to 15.
 * A duration is made of parts in w, d, h, m, s and ms, in this order, each at most once: 1 to 9 digits, then the unit. Blanks may
 * come between parts and before a unit, and the duration is then quoted: older_than(2w), older_than("1w 12 h").
 * Where an expression is expected, a quoted word names a store, whatever it spells and whatever follows: 'readable' is the store of that
 * name, readable alone is readable(1), and 'any'(a) is refused at its bracket, with 9, or with 8 inside brackets or arguments. */
uint64_t prune_read(const uint8_t *text, size_t text_len, uint8_t *image, size_t image_len);

/* Decides on the rule of an image, for a table of stores, an age in milliseconds and a confirmed list. Value: 1 evict, 0 keep.
 * Refusals: 16, 17, 18, 19. */
uint64_t prune_decide(const uint8_t *image, size_t image_len, const uint8_t *stores, size_t stores_len, uint64_t age,
                      const uint8_t *list, size_t list_len);

/* Checks whether the rule of an image may be set for a table of stores. Value: 0, a pass. Refusals: 16, 17, 18, 20, 21, 22. */
uint64_t prune_check(const uint8_t *image, size_t image_len, const uint8_t *stores, size_t stores_len);

/* Judges a rule's text: reads it, then checks. Value: 0, a pass. Refusals: 2 to 15, 17, 18, 20, 21, 22. */
uint64_t prune_judge(const uint8_t *text, size_t text_len, const uint8_t *stores, size_t stores_len);

/* Prints the rule of an image. Value: the text's length. Refusals: 16, 1.
 * A duration is printed in days, hours, minutes, seconds and milliseconds, without blanks: two weeks as 14d. A name is printed
 * without quotes, so the text may read as another rule: 'readable' prints as readable. */
uint64_t prune_print(const uint8_t *image, size_t image_len, uint8_t *text, size_t text_len);

#ifdef __cplusplus
}
#endif

#endif
