/* Schaumtruhe: reads deliveries of EDIFACT bytes that hold PRICAT messages (2.0d and 2.0c), judges each message and hands out its prices.
 *
 * Link libschaumtruhe_c.a (`rust/archive.sh` writes it), x86-64 Linux. The calls keep nothing between them and use no heap; any
 * number of threads may call at once.
 *
 * What a caller owes is what C asks of any pointer and length, and nothing more:
 *   - `delivery` points to `length` bytes that nobody writes to during the call; `row` points to `count` numbers, aligned for int64_t, and `out`
 *     to `room` bytes, which lie apart from the delivery and which nobody else reads or writes during the call;
 *   - no pointer is NULL, even where the length is 0;
 *   - how a delivery is read is a value that `schaumtruhe_usual` or `schaumtruhe_strict` made (see there), its service characters set or not.
 * Every content, every place and every number is answered. Places count bytes from 0 in the delivery, skipped line breaks too.
 *
 * `number` is 0 or the refusal:
 *    1 delivery longer than 1,048,576 bytes       2 the service characters cannot be used (see below)
 *   10 a byte not allowed                        11 no tag of three capital letters followed by the element separator or the terminator
 *   12 a piece without its terminator            13 no node with this tag and code can come here
 *   14 a required node is missing                15 the limit of a node is passed
 *   17 component missing      18 component not used      19 wrong format      20 code not on its page
 *   21 UNT count or reference differs            22 LIN number is not the next
 *   23 position agrees with an earlier one       24 message ends without UNT
 *   25 DTM/163 or DTM/164 a second time under one price (one without the other is 14)
 *   30 prices or article asked of a refused message
 *   31 no message begins at the place asked      32 the message has no price with that number
 */
#ifndef SCHAUMTRUHE_H
#define SCHAUMTRUHE_H

#include <stdbool.h>
#include <stddef.h>
#include <stdint.h>

#ifdef __cplusplus
extern "C" {
#endif

/* How a delivery is read. Make the value by one of the two calls below: all zeros is no reading, and a later version may add fields. What only cuts
 * takes the `syntax` of a reading.
 *
 * The five service characters are :+.?' in a value that was made, and may be set to others. They are used for a delivery without UNA. A delivery that
 * begins UNA has UNA's characters, and those in the value are then not looked at. The five used have to be distinct, and each of them a byte from 33 to
 * 126 or from 160 to 255 that is no ASCII letter, no digit and no minus; UNA has nine bytes, of which the eighth is a blank. A delivery for which one of
 * these conditions fails is refused with 2. The decimal mark is that byte alone: where it is a comma, 1.5 is no number. */
struct schaumtruhe_syntax {
    uint8_t component, element, decimal, release, terminator; /* the service characters, in UNA's order without the reserved byte */
    bool skips;                                               /* whether line breaks are skipped */
};

struct schaumtruhe_reading {
    struct schaumtruhe_syntax syntax;
};

/* The usual reading: CR and LF, in any run, directly after a segment's end, after UNA and at the delivery's start are skipped; UNA is looked for
 * behind those at the start. They belong to no segment, no piece and no message. Anywhere else they are bytes that are not allowed. */
struct schaumtruhe_reading schaumtruhe_usual(void);

/* The strict reading, which archives ask for: every byte counts, line breaks are bytes that are not allowed. */
struct schaumtruhe_reading schaumtruhe_strict(void);

/* The longest delivery that is read, skipped line breaks counted; a longer one gets 1. */
#define SCHAUMTRUHE_LIMIT 1048576

/* Numbers to a price in a row, and what each is. */
#define SCHAUMTRUHE_PRICE 8
enum schaumtruhe_column {
    SCHAUMTRUHE_POSITION, /* the position's number */
    SCHAUMTRUHE_ARTICLE,  /* the article's place from the message's start, or -1 */
    SCHAUMTRUHE_LENGTH,   /* its length, release marks counted, or 0 */
    SCHAUMTRUHE_AMOUNT,   /* the price as a whole number: 16806 of 168.06 */
    SCHAUMTRUHE_DECIMALS, /* its decimals: 2 of 168.06 */
    SCHAUMTRUHE_UNIT,     /* the unit's rank on its page from 1, or 0 */
    SCHAUMTRUHE_PRI,      /* the place of PRI from the message's start */
    SCHAUMTRUHE_RNG       /* the place of RNG from the message's start, or -1 */
};

struct schaumtruhe_totals {
    uint32_t number;
    size_t messages; /* found */
    size_t accepted; /* of these */
    size_t outside;  /* segments that belong to no message */
};

struct schaumtruhe_next {
    uint32_t found; /* 1, or 0 if there is none */
    size_t start;   /* its first byte */
    size_t end;     /* the byte after its last */
};

struct schaumtruhe_judged {
    uint32_t number;
    size_t segment; /* refused: the segment, from 1; accepted: the count of segments */
    size_t place;   /* refused: that segment's first byte; accepted: the byte after the message */
    size_t node;    /* refused: the guide's node, or 0; accepted: 0 */
};

struct schaumtruhe_prices {
    uint32_t number;
    size_t written; /* prices written to the row */
    size_t total;   /* prices of the message */
};

struct schaumtruhe_article {
    uint32_t number;
    size_t place;  /* its first byte in the delivery */
    size_t length; /* its length, release marks counted */
};

struct schaumtruhe_segment {
    uint32_t found; /* 1, or 0 if there is none */
    size_t start;   /* its first byte */
    size_t end;     /* the byte after its last */
    uint32_t piece; /* 1 if it has no terminator, since the delivery ends in its middle; else 0 */
};

/* The whole delivery: messages found, accepted, and segments outside.
 * Refused: 1 or 2, and the counts are 0. */
struct schaumtruhe_totals schaumtruhe_survey(struct schaumtruhe_reading reading, const uint8_t *delivery, size_t length);

/* The first message that begins at `from` or later. None after the last message, and none in a delivery that is refused with 1 or 2; `start`
 * and `end` are then 0. Going on from `end` gives every message once. A message ends where its last segment ends, before line breaks. */
struct schaumtruhe_next schaumtruhe_next_message(struct schaumtruhe_syntax syntax, const uint8_t *delivery, size_t length, size_t from);

/* The verdict of the message that begins at `at`: 0 if it is accepted.
 * Refused: 1, 2 or 31, and the rest is 0; or 10 to 25 with segment, place and node. */
struct schaumtruhe_judged schaumtruhe_judge_at(struct schaumtruhe_reading reading, const uint8_t *delivery, size_t length, size_t at);

/* The prices of the message that begins at `at`, from the k-th on (k from 0), SCHAUMTRUHE_PRICE numbers to a price, as many as fit whole into
 * the `count` numbers of the row. The rest of the row is unchanged. A k past the last price is no refusal: none is written.
 * Refused: 1, 2, 31 or 30, and the rest is 0; the row is then unchanged. */
struct schaumtruhe_prices schaumtruhe_prices(struct schaumtruhe_reading reading, const uint8_t *delivery, size_t length, size_t at, size_t k,
                                             int64_t *row, size_t count);

/* Where the article of price k of the message that begins at `at` stands: delivery[place] to delivery[place + length - 1], always within the
 * delivery. An absent article is empty and stands at the message's start.
 * Refused: 1, 2, 31, 30 or 32, and the rest is 0. */
struct schaumtruhe_article schaumtruhe_article(struct schaumtruhe_reading reading, const uint8_t *delivery, size_t length, size_t at, size_t k);

/* The segment that the bytes from `at` on begin with, `start` behind the line breaks that are skipped; a place within UNA, or before it, is before
 * the first segment. None where only skipped bytes follow, none at or past the end, and none in a delivery that is refused with 1 or 2; the rest is
 * then 0. From 0 on, and then from each `end`, it gives every segment once, in order. A place where no segment begins is taken as one where
 * one does. */
struct schaumtruhe_segment schaumtruhe_segment_at(struct schaumtruhe_syntax syntax, const uint8_t *delivery, size_t length, size_t at);

/* The part of the delivery from `place` on, `count` bytes as far as they lie within it, without its release marks: as many bytes as fit into the `room`
 * bytes of `out`. The rest of `out` is unchanged. Gives how many bytes the part has without its marks, so that a call with room 0 tells how many are
 * needed. The release is the delivery's own: UNA's, or the one in `syntax` if there is no UNA. An article, or any component, is such a part.
 * 0 in a delivery that is refused with 1 or 2; `out` is then unchanged. */
size_t schaumtruhe_plain(struct schaumtruhe_syntax syntax, const uint8_t *delivery, size_t length, size_t place, size_t count, uint8_t *out,
                         size_t room);

#ifdef __cplusplus
}
#endif

#endif
