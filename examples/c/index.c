/*
 * Turns the pages of a command by the row of its places' offsets: first each place by mml_place, then by the row alone. Then turns those
 * of its first order, and sees whether the order's row is the command's.
 *
 *     index [COMMAND [BASES]]
 *
 * For example: index 'SET-ATT:LIN=7-1&&-3,LEV=3.5:,UP;' DD
 *
 * Build: gcc -Wall -Wextra -std=c11 -I../../include -o index index.c -L<folder> -lmml
 * where <folder> has libmml.a.
 */

#include <inttypes.h>
#include <stdio.h>
#include <string.h>

#include "mml.h"

static uint8_t record[MML_RECORD_MAX];
static uint8_t order[MML_RECORD_MAX];

/* Tells of a refusal. Gives the status that the program ends with. */
static int refused(const char *call, uint64_t answer)
{
    fprintf(stderr, "%s: refusal %u at %" PRIu32 "\n", call, MML_NUMBER(answer), MML_VALUE(answer));
    return 1;
}

/* The places that a row tells of. All its slots were 0 before it was filled, and no offset is 0. */
static uint32_t places_in(const uint32_t row[MML_PLACES_MAX])
{
    uint32_t n = 0;

    while (n < MML_PLACES_MAX && row[n] != 0)
        n++;
    return n;
}

/* Shows a page: the fields of a place, with its number and its offset. */
static void show_page(uint32_t n, uint32_t offset, const uint8_t *fields, size_t length)
{
    printf("%2" PRIu32 " at %3" PRIu32 ", %2zu bytes:", n, offset, length);
    for (size_t at = 0; at < length; at++)
        printf(" %02X", fields[at]);
    putchar('\n');
}

/* Turns the pages by mml_place: record and row may be anything, all of both is judged each time. */
static int judged_pages(const uint8_t *bytes, size_t len, const uint32_t row[MML_PLACES_MAX])
{
    for (uint32_t n = 0; n < places_in(row); n++) {
        uint64_t answer = mml_place(bytes, len, row, MML_PLACES_MAX, n);
        if (MML_NUMBER(answer) != MML_DONE)
            return refused("mml_place", answer);
        show_page(n, row[n], bytes + row[n], MML_VALUE(answer));
    }
    return 0;
}

/* Where the fields of a place end that begin at this offset: before the next place or block, or with the record. */
static size_t end_of(const uint8_t *bytes, size_t len, size_t at)
{
    do
        at += 3 + ((size_t)bytes[at + 1] << 8 | bytes[at + 2]);
    while (at < len && bytes[at] != MML_TAG_PLACE && bytes[at] != MML_TAG_BLOCK);
    return at;
}

/* Turns the pages without a call: the library wrote record and row together, so nothing is left to be judged. */
static void own_pages(const uint8_t *bytes, size_t len, const uint32_t row[MML_PLACES_MAX])
{
    for (uint32_t n = 0; n < places_in(row); n++)
        show_page(n, row[n], bytes + row[n], end_of(bytes, len, row[n]) - row[n]);
}

int main(int argc, char **argv)
{
    const char *command = argc > 1 ? argv[1] : "SET-ATT:LIN=7-1&&-3,LEV=3.5:,UP;";
    const char *bases = argc > 2 ? argv[2] : "";
    uint32_t row[MML_PLACES_MAX] = { 0 }, order_row[MML_PLACES_MAX] = { 0 };

    uint64_t answer = mml_read_row((const uint8_t *)command, strlen(command), (const uint8_t *)bases, strlen(bases), record,
                                   sizeof record, row, MML_PLACES_MAX);
    if (MML_NUMBER(answer) != MML_DONE)
        return refused("mml_read_row", answer);
    size_t record_len = MML_VALUE(answer);
    printf("record of %zu bytes, page by page\n", record_len);
    if (judged_pages(record, record_len, row) != 0)
        return 1;
    printf("the same by the row alone\n");
    own_pages(record, record_len, row);

    answer = mml_order_row(record, record_len, 0, order, sizeof order, order_row, MML_PLACES_MAX);
    if (MML_NUMBER(answer) != MML_DONE)
        return refused("mml_order_row", answer);
    printf("order 0 of %" PRIu32 " bytes, page by page\n", MML_VALUE(answer));
    if (judged_pages(order, MML_VALUE(answer), order_row) != 0)
        return 1;

    /* Where a group is reduced the places behind it have moved: the order's row is not the command's. */
    answer = mml_place(record, record_len, order_row, MML_PLACES_MAX, 0);
    if (MML_NUMBER(answer) == MML_ROW)
        printf("the order's row is not the command's: refusal %u at slot %" PRIu32 "\n", MML_NUMBER(answer), MML_VALUE(answer));
    else
        printf("the order's row is the command's too\n");
    return 0;
}
