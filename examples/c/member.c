/*
 * Tells whether arguments, typed as in a command, stand in a place of a command, and where.
 *
 *     member [COMMAND [BASES [PLACE [ARGUMENT..]]]]
 *
 * For example: member 'SET-ATT:LIN=7-1&&-3&-100&&-120,LEV=3.5;' DD 0 7-117 7-4
 *
 * Build: gcc -Wall -Wextra -std=c11 -I../../include -o member member.c -L<folder> -lmml
 * where <folder> has libmml.a.
 */

#include <inttypes.h>
#include <stdio.h>
#include <stdlib.h>
#include <string.h>

#include "mml.h"

/* In the record of a command A with one place: where the element begins, and where its units do if it is a single one. */
enum { ELEMENT = 19, UNITS = 22 };

static uint8_t record[MML_RECORD_MAX];
static uint8_t argument[MML_RECORD_MAX];

/* Tells what is wrong with a word. Gives the status that the program ends with. */
static int wrong(const char *word, const char *what)
{
    fprintf(stderr, "%s: %s\n", word, what);
    return 1;
}

/* Tells of a refusal. Gives the status that the program ends with. */
static int refused(const char *call, uint64_t answer)
{
    fprintf(stderr, "%s: refusal %u at %" PRIu32 "\n", call, MML_NUMBER(answer), MML_VALUE(answer));
    return 1;
}

/* The base letter of a place of a record; D if the record has no such place. */
static uint8_t base_of(size_t record_len, uint32_t place)
{
    for (size_t at = 0; at < record_len; at += 3 + (size_t)(record[at + 1] << 8 | record[at + 2]))
        if (record[at] == MML_TAG_PLACE && place-- == 0)
            return record[at + 3];
    return 'D';
}

/* Reads an argument in a command of its own, under the base of its place, and asks for it by its unit fields. */
static int ask(size_t record_len, uint32_t place, const char *typed)
{
    char text[MML_TEXT_MAX + 1];
    uint8_t base = base_of(record_len, place);
    int text_len = snprintf(text, sizeof text, "A:%s;", typed);

    if (text_len < 0 || (size_t)text_len >= sizeof text)
        return wrong(typed, "the argument is too long");
    uint64_t answer = mml_read((const uint8_t *)text, (size_t)text_len, &base, 1, argument, sizeof argument);
    if (MML_NUMBER(answer) != MML_DONE)
        return refused("mml_read", answer);
    if (MML_VALUE(answer) < UNITS || argument[ELEMENT] != MML_TAG_SINGLE)
        return wrong(typed, "this is not one argument");
    answer = mml_member(record, record_len, place, argument + UNITS, MML_VALUE(answer) - UNITS);
    if (MML_NUMBER(answer) != MML_DONE)
        return refused("mml_member", answer);
    if (MML_VALUE(answer) == 0)
        printf("%s: no\n", typed);
    else
        printf("%s: yes, position %" PRIu32 "\n", typed, MML_VALUE(answer) - 1);
    return 0;
}

int main(int argc, char **argv)
{
    const char *command = argc > 1 ? argv[1] : "SET-ATT:LIN=7-100&&-120,LEV=3.5;";
    const char *bases = argc > 2 ? argv[2] : "";
    const char *number = argc > 3 ? argv[3] : "0";
    int status = 0;

    char *end;
    unsigned long place = strtoul(number, &end, 10);
    if (number[0] < '0' || number[0] > '9' || *end != 0 || place > UINT32_MAX)
        return wrong(number, "PLACE is a number from 0 to 4294967295");
    uint64_t answer = mml_read((const uint8_t *)command, strlen(command), (const uint8_t *)bases, strlen(bases), record,
                               sizeof record);
    if (MML_NUMBER(answer) != MML_DONE)
        return refused("mml_read", answer);
    if (argc < 5)
        return ask(MML_VALUE(answer), (uint32_t)place, "7-117");
    for (int i = 4; i < argc && status == 0; i++)
        status = ask(MML_VALUE(answer), (uint32_t)place, argv[i]);
    return status;
}
