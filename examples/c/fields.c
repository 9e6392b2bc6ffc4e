/*
 * Shows every field of a command's record, collects the base letters of its places, and reads
 * the printed text back with them.
 *
 *     fields [COMMAND [BASES]]
 *
 * For example: fields 'SET-ATT:LIN=7-1&&-3,LEV=3.5;' DD
 *
 * Build: gcc -Wall -Wextra -std=c11 -I../../include -o fields fields.c -L<folder> -lmml
 * where <folder> has libmml.a.
 */

#include <inttypes.h>
#include <stdio.h>
#include <string.h>

#include "mml.h"

/* A field starts with its tag and the two bytes of its length. */
enum { HEAD = 3 };

/* Where the parts of a content stand: a range's, a numeral's. */
enum { UPPER = 0, INCREMENT = 4 };
enum { LETTER = 0, FRACTION = 1, VALUE = 2 };

static uint8_t record[MML_RECORD_MAX];
static uint8_t again[MML_RECORD_MAX];
static uint8_t text[MML_TEXT_MAX];

static const char *const names[] = {
    "none", "code piece", "block", "place", "name piece", "single", "range",
    "numeral", "keyed", "identifier", "symbolic", "string", "orders",
};

/* The content's length: two bytes, the high one first. */
static size_t content_length(const uint8_t *field)
{
    return (size_t)field[1] << 8 | field[2];
}

/* A number of four bytes, the high one first. */
static uint32_t number_at(const uint8_t *at)
{
    return (uint32_t)at[0] << 24 | (uint32_t)at[1] << 16 | (uint32_t)at[2] << 8 | at[3];
}

/* Shows a numeral: its base letter, and its value with the full stop where it has one. */
static void show_numeral(const uint8_t *content)
{
    uint32_t value = number_at(content + VALUE), parts = 1;

    for (unsigned digit = 0; digit < content[FRACTION]; digit++)
        parts *= 10;
    printf(" %c %" PRIu32, content[LETTER], value / parts);
    if (content[FRACTION] > 0)
        printf(".%0*" PRIu32, content[FRACTION], value % parts);
}

/* Shows a field. */
static void show_field(unsigned tag, const uint8_t *content, size_t length)
{
    if (tag == MML_TAG_SINGLE) {
        puts(names[tag]);
        return;
    }
    printf("%-10s", names[tag]);
    switch (tag) {
    case MML_TAG_ORDERS:
        printf(" %" PRIu32, number_at(content));
        break;
    case MML_TAG_RANGE:
        printf(" to %" PRIu32 " by %" PRIu32, number_at(content + UPPER), number_at(content + INCREMENT));
        break;
    case MML_TAG_NUMERAL:
        show_numeral(content);
        break;
    default:
        printf(" %.*s", (int)length, (const char *)content);
    }
    putchar('\n');
}

/* Shows every field of a well-formed record. */
static void show_fields(size_t record_len)
{
    for (size_t at = 0; at < record_len; at += HEAD + content_length(record + at))
        show_field(record[at], record + at + HEAD, content_length(record + at));
}

/* Collects the base letters of a well-formed record: the content of each place. Gives how many there are, at most
   MML_BASES_MAX. */
static size_t collect_bases(size_t record_len, uint8_t *bases)
{
    size_t n = 0;

    for (size_t at = 0; at < record_len; at += HEAD + content_length(record + at))
        if (record[at] == MML_TAG_PLACE)
            bases[n++] = record[at + HEAD];
    return n;
}

/* Tells of a refusal. Gives the status that the program ends with. */
static int refused(const char *call, uint64_t answer)
{
    fprintf(stderr, "%s: refusal %u at %" PRIu32 "\n", call, MML_NUMBER(answer), MML_VALUE(answer));
    return 1;
}

/* Prints the record and reads the text with the record's own base letters: it is the same record again. */
static int read_back(size_t record_len)
{
    uint8_t bases[MML_BASES_MAX];
    size_t n = collect_bases(record_len, bases);
    uint64_t answer = mml_print(record, record_len, text, sizeof text);

    if (MML_NUMBER(answer) != MML_DONE)
        return refused("mml_print", answer);
    size_t text_len = MML_VALUE(answer);
    printf("bases      %.*s\n", (int)n, (const char *)bases);
    printf("text       %.*s\n", (int)text_len, (const char *)text);
    answer = mml_read(text, text_len, bases, n, again, sizeof again);
    if (MML_NUMBER(answer) != MML_DONE)
        return refused("mml_read", answer);
    if (MML_VALUE(answer) != record_len || memcmp(record, again, record_len) != 0) {
        fprintf(stderr, "the text gives another record\n");
        return 1;
    }
    printf("read back  the same record, %zu bytes\n", record_len);
    return 0;
}

int main(int argc, char **argv)
{
    const char *command = argc > 1 ? argv[1] : "SET-ATT:LIN=7-1&&-3,LEV=3.5;";
    const char *bases = argc > 2 ? argv[2] : "";

    uint64_t answer = mml_read((const uint8_t *)command, strlen(command), (const uint8_t *)bases, strlen(bases), record,
                               sizeof record);
    if (MML_NUMBER(answer) != MML_DONE)
        return refused("mml_read", answer);
    size_t record_len = MML_VALUE(answer);

    /* A record from elsewhere must be judged before it is walked; this one is well formed anyhow. */
    answer = mml_count(record, record_len);
    if (MML_NUMBER(answer) != MML_DONE)
        return refused("mml_count", answer);
    show_fields(record_len);
    return read_back(record_len);
}
