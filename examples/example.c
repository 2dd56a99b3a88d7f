/* Reads a file and prints what the checking program of document 01 prints: X and a refusal of the delivery; or a line M for each message, a
 * line P for each price of an accepted one, and a line E with the survey. With -s it prints a line S for each segment instead: its first byte,
 * the byte after its last, and 1 if it is a piece. --strict before that reads strictly: line breaks are not skipped. --characters and five bytes hand
 * these in as the service characters of a delivery without UNA. */
#include <inttypes.h>
#include <stdbool.h>
#include <stdio.h>
#include <string.h>

#include "schaumtruhe.h"

/* Each call for prices judges the message anew, so that many small rows would take long. */
#define ROWS 65536

static struct schaumtruhe_reading reading;
static int64_t row[ROWS * SCHAUMTRUHE_PRICE];
static uint8_t delivery[SCHAUMTRUHE_LIMIT + 1]; /* one more than the limit, so that a longer file is told apart */
static uint8_t text[SCHAUMTRUHE_LIMIT];

/* The article of a price without its release marks; `-` if it is absent. The row has its place in the message and its length. */
static void print_article(size_t length, size_t message, const int64_t *price)
{
    size_t count = (size_t)price[SCHAUMTRUHE_LENGTH];
    if (count == 0) {
        putchar('-');
        return;
    }
    size_t place = message + (size_t)price[SCHAUMTRUHE_ARTICLE];
    fwrite(text, 1, schaumtruhe_plain(reading.syntax, delivery, length, place, count, text, sizeof text), stdout);
}

static void print_prices(size_t length, size_t at)
{
    size_t k = 0;
    struct schaumtruhe_prices got;
    do {
        got = schaumtruhe_prices(reading, delivery, length, at, k, row, ROWS * SCHAUMTRUHE_PRICE);
        for (size_t i = 0; i < got.written; i++) {
            const int64_t *price = row + i * SCHAUMTRUHE_PRICE;
            printf("P %" PRId64 " ", price[SCHAUMTRUHE_POSITION]);
            print_article(length, at, price);
            printf(" %" PRId64 " %" PRId64 "\n", price[SCHAUMTRUHE_AMOUNT], price[SCHAUMTRUHE_DECIMALS]);
        }
        k += got.written;
    } while (k < got.total);
}

static void print_messages(size_t length)
{
    size_t from = 0;
    for (size_t n = 1;; n++) {
        struct schaumtruhe_next message = schaumtruhe_next_message(reading.syntax, delivery, length, from);
        if (!message.found)
            return;
        struct schaumtruhe_judged verdict = schaumtruhe_judge_at(reading, delivery, length, message.start);
        printf("M %zu %zu %" PRIu32 " %zu %zu %zu\n", n, message.start, verdict.number, verdict.segment, verdict.place, verdict.node);
        print_prices(length, message.start); /* a refused message has none */
        from = message.end;
    }
}

static void print_report(size_t length)
{
    struct schaumtruhe_totals totals = schaumtruhe_survey(reading, delivery, length);
    if (totals.number != 0) {
        printf("X %" PRIu32 "\n", totals.number);
        return;
    }
    print_messages(length);
    printf("E %zu %zu %zu\n", totals.messages, totals.accepted, totals.outside);
}

static void print_segments(size_t length)
{
    struct schaumtruhe_segment segment = schaumtruhe_segment_at(reading.syntax, delivery, length, 0);
    while (segment.found) {
        printf("S %zu %zu %" PRIu32 "\n", segment.start, segment.end, segment.piece);
        segment = schaumtruhe_segment_at(reading.syntax, delivery, length, segment.end);
    }
}

/* Whether the next word is this one; it is then passed. */
static bool passed(char ***words, const char *word)
{
    bool is = **words != NULL && strcmp(**words, word) == 0;
    *words += is;
    return is;
}

/* Hands in five characters; false if there are not five. */
static bool set_characters(const char *five)
{
    if (five == NULL || strlen(five) != 5)
        return false;
    const uint8_t *bytes = (const uint8_t *)five;
    reading.syntax.component = bytes[0];
    reading.syntax.element = bytes[1];
    reading.syntax.decimal = bytes[2];
    reading.syntax.release = bytes[3];
    reading.syntax.terminator = bytes[4];
    return true;
}

int main(int argc, char **argv)
{
    char **words = argv + (argc > 0);
    reading = passed(&words, "--strict") ? schaumtruhe_strict() : schaumtruhe_usual();
    if (passed(&words, "--characters"))
        words += set_characters(words[0]);
    bool segments = passed(&words, "-s");
    const char *name = words[0];
    FILE *in = name != NULL && words[1] == NULL ? fopen(name, "rb") : NULL;
    if (in == NULL) {
        fprintf(stderr, "usage: example [--strict] [--characters FIVE] [-s] FILE\n");
        return 2;
    }
    size_t length = fread(delivery, 1, sizeof delivery, in);
    if (ferror(in)) {
        perror(name);
        return 2;
    }
    fclose(in);
    if (segments)
        print_segments(length);
    else
        print_report(length);
    return 0;
}
