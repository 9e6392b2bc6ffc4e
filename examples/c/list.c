/*
 * Writes all orders of a command into one buffer, and shows each as text with its length.
 *
 *     list [COMMAND [BASES]]
 *
 * For example: list 'SET-ATT:LIN=7-1&&-3,LEV=3.5;' DD
 *
 * Build: gcc -Wall -Wextra -std=c11 -I../../include -o list list.c -L<folder> -lmml
 * where <folder> has libmml.a.
 */

#include <inttypes.h>
#include <stdio.h>
#include <stdlib.h>
#include <string.h>

#include "mml.h"

/* The field length: where its content stands, and where the order begins. */
enum { LENGTH = 3, ORDER = 7 };

static uint8_t record[MML_RECORD_MAX];
static uint8_t text[MML_TEXT_MAX];

/* A number of four bytes, the high one first. */
static uint32_t number_at(const uint8_t *at)
{
    return (uint32_t)at[0] << 24 | (uint32_t)at[1] << 16 | (uint32_t)at[2] << 8 | at[3];
}

/* Tells of a refusal. Gives the status that the program ends with. */
static int refused(const char *call, uint64_t answer)
{
    fprintf(stderr, "%s: refusal %u at %" PRIu32 "\n", call, MML_NUMBER(answer), MML_VALUE(answer));
    return 1;
}

/* Walks over a list from length to length: the k-th step is at order k. */
static int show_list(const uint8_t *list, size_t list_len)
{
    size_t k = 0, length;

    for (size_t at = 0; at < list_len; at += ORDER + length, k++) {
        length = number_at(list + at + LENGTH);
        uint64_t answer = mml_print(list + at + ORDER, length, text, sizeof text);
        if (MML_NUMBER(answer) != MML_DONE)
            return refused("mml_print", answer);
        printf("%5zu, %3zu bytes: %.*s\n", k, length, (int)MML_VALUE(answer), (const char *)text);
    }
    return 0;
}

int main(int argc, char **argv)
{
    const char *command = argc > 1 ? argv[1] : "SET-ATT:LIN=7-1&&-3,LEV=3.5;";
    const char *bases = argc > 2 ? argv[2] : "";

    uint64_t answer = mml_read((const uint8_t *)command, strlen(command), (const uint8_t *)bases, strlen(bases), record,
                               sizeof record);
    if (MML_NUMBER(answer) != MML_DONE)
        return refused("mml_read", answer);
    size_t record_len = MML_VALUE(answer);

    /* An empty buffer is too short for every list: the refusal tells the bytes needed. */
    answer = mml_list(record, record_len, NULL, 0);
    if (MML_NUMBER(answer) != MML_BUFFER_TOO_SHORT)
        return refused("mml_list", answer);
    size_t list_len = MML_VALUE(answer);
    printf("list of %zu bytes\n", list_len);

    uint8_t *list = malloc(list_len);
    if (list == NULL) {
        fprintf(stderr, "there is no memory for the list\n");
        return 1;
    }
    answer = mml_list(record, record_len, list, list_len);
    int status = MML_NUMBER(answer) != MML_DONE ? refused("mml_list", answer) : show_list(list, list_len);
    free(list);
    return status;
}
