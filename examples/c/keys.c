/*
 * Types keys to a line keeper, and reads each line as soon as it is ready.
 *
 *     keys [KEYS]
 *
 * For example, with a BS and a CAN: keys "$(printf 'SET-ATT:LEV=3,\b.5;WRONG\030C;')"
 *
 * Build: gcc -Wall -Wextra -std=c11 -I../../include -o keys keys.c -L<folder> -lmml
 * where <folder> has libmml.a.
 */

#include <inttypes.h>
#include <stdio.h>

#include "mml.h"

enum { READY = 1 };

static uint8_t record[MML_RECORD_MAX];

/* Shows the line that the keeper holds. */
static void show_line(const char *name, const mml_keeper *keeper)
{
    printf("%s %.*s\n", name, (int)keeper->count, (const char *)keeper->bytes);
}

/* Tells of a refusal. */
static void show_refusal(uint64_t answer)
{
    printf("refused %u at %" PRIu32 "\n", MML_NUMBER(answer), MML_VALUE(answer));
}

/* Reads the line that the keeper holds: byte for byte, as it was typed. */
static void read_line(const mml_keeper *keeper)
{
    uint64_t answer = mml_read(keeper->bytes, keeper->count, NULL, 0, record, sizeof record);

    show_line("line", keeper);
    if (MML_NUMBER(answer) != MML_DONE)
        show_refusal(answer);
    else
        printf("a record of %" PRIu32 " bytes\n", MML_VALUE(answer));
}

int main(int argc, char **argv)
{
    const char *keys = argc > 1 ? argv[1] : "A;";
    mml_keeper keeper;
    uint64_t answer = 0;

    if (argc > 2) {
        fprintf(stderr, "usage: keys [KEYS]\n");
        return 2;
    }
    for (keeper.count = 0; *keys != 0; keys++) {
        answer = mml_key(&keeper, (uint8_t)*keys);
        if (MML_NUMBER(answer) != MML_DONE)
            show_refusal(answer);
        else if (MML_VALUE(answer) == READY)
            read_line(&keeper);
    }
    if (answer != READY)
        show_line("left", &keeper);
    return 0;
}
