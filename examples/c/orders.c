/*
 * Shows the record of a command, the number of its orders, and the text of every order.
 *
 *     orders [COMMAND [BASES]]
 *
 * For example: orders 'SET-ATT:LIN=7-1&&-3,LEV=3.5;' DD
 *
 * Build: gcc -Wall -Wextra -std=c11 -I../../include -o orders orders.c -L<folder> -lmml
 * where <folder> has libmml.a.
 */

#include <inttypes.h>
#include <stdio.h>
#include <string.h>

#include "mml.h"

static uint8_t record[MML_RECORD_MAX];
static uint8_t order[MML_RECORD_MAX];
static uint8_t text[MML_TEXT_MAX];

/* What each refusal means. */
static const char *const sentences[] = {
    "done",
    "a base letter is none of D, H, O, B, K, or there are more than 32",
    "the text is longer than 1,024 bytes",
    "a byte is not permitted in a text",
    "a string or a comment is not closed",
    "a byte starts no token",
    "the command has no semicolon",
    "something stands after the semicolon",
    "the command code is wrong",
    "the place is named and its block is not, or the other way round",
    "the name is wrong",
    "units and separators do not alternate, or a named value is empty",
    "the unit cannot be read",
    "the numeral is too big or has more than 9 fraction digits",
    "a rule of grouping is broken",
    "too long a word or string, or too many blocks, places or elements",
    "the value has over 4,096 arguments or the command over 65,535 orders",
    "the buffer is too short",
    "the record is not well formed",
    "there is no order with this number",
};

/* Tells of a refusal. Gives the status that the program ends with. */
static int refused(const char *call, uint64_t answer)
{
    unsigned number = MML_NUMBER(answer);
    const char *sentence = "unknown";

    if (number < sizeof sentences / sizeof sentences[0])
        sentence = sentences[number];
    fprintf(stderr, "%s: refusal %u at %" PRIu32 ": %s\n",
            call, number, MML_VALUE(answer), sentence);
    return 1;
}

/* Shows bytes as hexadecimal digits. */
static void show_hex(const uint8_t *bytes, size_t length)
{
    for (size_t at = 0; at < length; at++)
        printf("%02X%s", bytes[at], at % 32 == 31 ? "\n        " : "");
    putchar('\n');
}

/* Shows order k as text. */
static int show_order(size_t record_len, uint64_t k)
{
    uint64_t answer = mml_order(record, record_len, k, order, sizeof order);

    if (MML_NUMBER(answer) != MML_DONE)
        return refused("mml_order", answer);
    answer = mml_print(order, MML_VALUE(answer), text, sizeof text);
    if (MML_NUMBER(answer) != MML_DONE)
        return refused("mml_print", answer);
    printf("%7" PRIu64 " %.*s\n", k, (int)MML_VALUE(answer), (const char *)text);
    return 0;
}

int main(int argc, char **argv)
{
    const char *command = argc > 1 ? argv[1] : "SET-ATT:LIN=7-1&&-3,LEV=3.5;";
    const char *bases = argc > 2 ? argv[2] : "";

    uint64_t answer = mml_read((const uint8_t *)command, strlen(command),
                               (const uint8_t *)bases, strlen(bases),
                               record, sizeof record);
    if (MML_NUMBER(answer) != MML_DONE)
        return refused("mml_read", answer);
    size_t record_len = MML_VALUE(answer);

    printf("command %s\nrecord  ", command);
    show_hex(record, record_len);

    answer = mml_count(record, record_len);
    if (MML_NUMBER(answer) != MML_DONE)
        return refused("mml_count", answer);
    uint32_t count = MML_VALUE(answer);
    printf("orders  %" PRIu32 "\n", count);

    for (uint64_t k = 0; k < count; k++)
        if (show_order(record_len, k) != 0)
            return 1;
    return 0;
}
