/*
 * stack - the bytes of stack that each call takes; more than its bound is a failure.
 *
 * Each call runs on a stack of its own that is painted before; what is no longer painted was used. A command is read as it is, and
 * with spaces to the longest text, since longer texts are read through longer tables. Of its first place the fields are asked for, and
 * arguments of 1 to 4 units. Keys are taken to lines of all lengths and ends, also where they are refused.
 */
#define _XOPEN_SOURCE 700
#include <stdio.h>
#include <stdlib.h>
#include <string.h>
#include <ucontext.h>

#include "mml.h"

enum { ROOM = 1 << 18, PAINT = 0x5C, KIBIBYTE = 1024, LIST_ROOM = 1 << 22 };
enum { READ, PRINT, ORDER, COUNT, LIST, READ_ROW, ORDER_ROW, PLACE, MEMBER, KEY, CALLS };

/* Each call, and the bytes of stack that it may take: the reader has its tables of tokens there, a key copies of its keeper, a list two
   rows of 96 numbers, the others one at most. */
static const struct {
    const char *name;
    size_t allowed;
} calls[CALLS] = {
    [READ] = { "read", 16 * KIBIBYTE },
    [PRINT] = { "print", KIBIBYTE },
    [ORDER] = { "order", KIBIBYTE },
    [COUNT] = { "count", KIBIBYTE },
    [LIST] = { "list", 3 * KIBIBYTE / 2 },
    [READ_ROW] = { "read_row", 16 * KIBIBYTE },
    [ORDER_ROW] = { "order_row", KIBIBYTE },
    [PLACE] = { "place", KIBIBYTE },
    [MEMBER] = { "member", KIBIBYTE },
    [KEY] = { "key", 3 * KIBIBYTE },
};

static const char *const commands[] = {
    "SET-ATT:LIN=7-1&&-3,LEV=3.5;",
    "A:0&&4094,0&&15;",
    "CHANGE-TRUNK-GROUP:ROUTE=7-1&&-3&-5&-9&8-2&-5&-6&9-1&&-7++2,LEV=3.5&4.25,OWNER=\"South \"\"B\"\" wing\",P=K'*21#,THR=10%"
    ":1,,UPD8,B'1010,O'777,1-2-3-1&-2&-3&-4&-5&-6&-7&-8,CENTRAL,WEST;",
    "A:4294967295,4.294967295,0.000000000,H'FFFFFFFF,O'37777777777,B'11111111111111111111111111111111"
    ",B'0&&B'11111111111111111111111111111111++B'111111111111111111111111111111;",
    "A:PORT=1,PART=2,N-1=3,N-01=4,OWNER-1=5,OTNER-1=6;",
};

/* The argument that is asked for, as unit fields, and the bytes of one of them. */
static const uint8_t argument[] = {
    MML_TAG_NUMERAL, 0, 6, 'D', 0, 0, 0, 0, 7, MML_TAG_NUMERAL, 0, 6, 'D', 0, 0, 0, 0, 2,
    MML_TAG_NUMERAL, 0, 6, 'D', 0, 0, 0, 0, 1, MML_TAG_NUMERAL, 0, 6, 'D', 0, 0, 0, 0, 1,
};
enum { UNIT_LEN = sizeof argument / 4 };

/* Lines that keys are taken to: so many bytes, all of them the same but the last, and the number that a key is answered which is to be
   held, and one which removes. */
static const struct {
    uint32_t count;
    uint8_t byte, last;
    unsigned held, removes;
} lines[] = {
    { 0, 'A', 'A', MML_DONE, MML_DONE },
    { 1, ';', ';', MML_DONE, MML_DONE },
    { MML_TEXT_MAX - 1, 'A', 'A', MML_DONE, MML_DONE },
    { MML_TEXT_MAX - 1, '"', '"', MML_DONE, MML_DONE },
    { MML_TEXT_MAX - 1, '/', '*', MML_DONE, MML_DONE },
    { MML_TEXT_MAX, 'A', 'A', MML_NO_KEY, MML_DONE },
    { MML_TEXT_MAX, 'A', ';', MML_DONE, MML_DONE },
    { MML_TEXT_MAX, '"', ';', MML_NO_KEY, MML_DONE },
    { MML_TEXT_MAX, ';', ';', MML_NO_KEY, MML_DONE },
    { MML_TEXT_MAX + 1, 'A', ';', MML_NO_KEY, MML_NO_KEY },
};

static const uint8_t held_keys[] = "A;\"/*";
static const uint8_t removing_keys[] = { MML_KEY_BS, MML_KEY_CAN };

static uint8_t text[MML_TEXT_MAX];
static uint8_t record[MML_RECORD_MAX];
static uint8_t out[MML_RECORD_MAX];
static uint8_t list[LIST_ROOM];
static uint32_t row[MML_PLACES_MAX], filled[MML_PLACES_MAX];
static size_t text_len, record_len, argument_len;
static uint64_t k, answer;
static mml_keeper keeper;
static uint8_t key;
static int call;

static uint8_t room[ROOM];
static ucontext_t here, there;

static void stop(const char *why)
{
    fprintf(stderr, "stack: %s\n", why);
    exit(2);
}

static uint64_t read_text(void)
{
    return mml_read(text, text_len, (const uint8_t *)"", 0, out, sizeof out);
}

static uint64_t read_with(uint32_t *offsets)
{
    return mml_read_row(text, text_len, (const uint8_t *)"", 0, out, sizeof out, offsets, MML_PLACES_MAX);
}

static void run(void)
{
    switch (call) {
    case READ:
        answer = read_text();
        break;
    case PRINT:
        answer = mml_print(record, record_len, out, sizeof out);
        break;
    case ORDER:
        answer = mml_order(record, record_len, k, out, sizeof out);
        break;
    case LIST:
        answer = mml_list(record, record_len, list, sizeof list);
        break;
    case READ_ROW:
        answer = read_with(filled);
        break;
    case ORDER_ROW:
        answer = mml_order_row(record, record_len, k, out, sizeof out, filled, MML_PLACES_MAX);
        break;
    case PLACE:
        answer = mml_place(record, record_len, row, MML_PLACES_MAX, 0);
        break;
    case MEMBER:
        answer = mml_member(record, record_len, 0, argument, argument_len);
        break;
    case KEY:
        answer = mml_key(&keeper, key);
        break;
    default:
        answer = mml_count(record, record_len);
    }
}

/* The bytes of stack that the call takes, which must answer with this number. */
static size_t used(unsigned number)
{
    size_t untouched = 0;

    memset(room, PAINT, sizeof room);
    if (getcontext(&there) != 0)
        stop("there is no context");
    there.uc_stack.ss_sp = room;
    there.uc_stack.ss_size = sizeof room;
    there.uc_link = &here;
    makecontext(&there, run, 0);
    if (swapcontext(&here, &there) != 0)
        stop("the call cannot be run on a stack of its own");
    if (MML_NUMBER(answer) != number)
        stop("a call answered with another number");
    while (untouched < sizeof room && room[untouched] == PAINT)
        untouched++;
    return sizeof room - untouched;
}

/* Takes up a command, with spaces to a length that is not below its own. */
static void take(const char *command, size_t len)
{
    memset(text, ' ', sizeof text);
    memcpy(text, command, strlen(command));
    text_len = len;
    answer = read_with(row);
    if (MML_NUMBER(answer) != MML_DONE)
        stop("a command is refused");
    record_len = MML_VALUE(answer);
    memcpy(record, out, record_len);
}

/* Runs the call, and keeps the most that it took. */
static void measure(size_t most[CALLS], unsigned number)
{
    size_t bytes = used(number);

    if (most[call] < bytes)
        most[call] = bytes;
}

/* Runs every call of commands on what was taken up. */
static void measure_command(size_t most[CALLS])
{
    for (call = READ; call < MEMBER; call++)
        measure(most, MML_DONE);
    call = MEMBER;
    for (argument_len = UNIT_LEN; argument_len <= sizeof argument; argument_len += UNIT_LEN)
        measure(most, MML_DONE);
}

/* Takes these keys, each to the same line. */
static void measure_keys(size_t most[CALLS], size_t line, const uint8_t *keys, size_t n, unsigned number)
{
    call = KEY;
    for (size_t i = 0; i < n; i++) {
        memset(keeper.bytes, lines[line].byte, sizeof keeper.bytes);
        keeper.count = lines[line].count;
        if (keeper.count > 0 && keeper.count <= sizeof keeper.bytes)
            keeper.bytes[keeper.count - 1] = lines[line].last;
        key = keys[i];
        measure(most, number);
    }
}

int main(void)
{
    size_t most[CALLS] = { 0 };
    int failed = 0;

    for (size_t i = 0; i < 2 * sizeof commands / sizeof commands[0]; i++) {
        const char *command = commands[i / 2];
        take(command, i % 2 == 0 ? strlen(command) : sizeof text);
        k = 0;
        measure_command(most);
        k = MML_VALUE(mml_count(record, record_len)) - 1;
        measure_command(most);
    }
    for (size_t i = 0; i < sizeof lines / sizeof lines[0]; i++) {
        measure_keys(most, i, held_keys, sizeof held_keys - 1, lines[i].held);
        measure_keys(most, i, removing_keys, sizeof removing_keys, lines[i].removes);
    }
    for (call = 0; call < CALLS; call++) {
        printf("%-9s %5zu bytes of stack, %5zu allowed\n", calls[call].name, most[call], calls[call].allowed);
        if (calls[call].allowed < most[call]) {
            fprintf(stderr, "stack: %s takes more than %zu bytes\n", calls[call].name, calls[call].allowed);
            failed = 1;
        }
    }
    return failed;
}
