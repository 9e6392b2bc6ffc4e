/*
 * pointers - every pointer of every call at every position (lent.h): misaligned, next to pages without access, null for length 0; a
 * keeper's and a row's at those that are aligned for it.
 *
 * Each call must answer and write what it does with plain buffers, leave every other byte as it was, and touch nothing outside.
 * Before that the test sees that its own watch works.
 */
#include "lent.h"

#include <setjmp.h>

#include "mml.h"

enum { SPARE = 16, FILLING = 0x3C };

/* The bytes of the field orders, which a record begins with. */
enum { ORDERS_LEN = 7 };

/* The bytes of the field length, which stands before each order of a list. */
enum { LENGTH_LEN = 7 };

static const struct {
    const char *text;
    const char *bases;
} commands[] = {
    { "SET-ATT:LIN=7-1&&-3,LEV=3.5;", "DD" },
    { "A;", "" },
    { "A:;", "K" },
    { "A:0&&4094,0&&15;", "" },
    { "A:5&UP&\"a b\",,7-1&&-3:N=8&&9++3&X;", "" },
    { "CHANGE-TRUNK-GROUP:ROUTE=7-1&&-3&-5&-9&8-2&-5&-6&9-1&&-7++2,LEV=3.5&4.25,OWNER=\"South \"\"B\"\" wing\",P=K'*21#,THR=10%"
      ":1,,UPD8,B'1010,O'777,1-2-3-1&-2&-3&-4&-5&-6&-7&-8,CENTRAL,WEST;",
      "DDDDDHHHHHHHH" },
    { "", "" },
    { "A;", "DDX" },
    { "A:\"x", "" },
    { "A:/;", "" },
    { "A", "" },
    { "A;B", "" },
    { "A-;", "" },
    { "A:B=3,5;", "" },
    { "A:B-=5;", "" },
    { "A:1&;", "" },
    { "A:9;", "O" },
    { "A:4294967296;", "" },
    { "A:9&&5;", "" },
    { "A:0&&4096;", "" },
};

/* Arguments that are asked for in the first place of a record: none, a number, the number cut short, and 7-2. */
static const struct {
    const char *units;
    size_t len;
} arguments[] = {
    { "", 0 },
    { "\7\0\6D\0\0\0\0\5", 9 },
    { "\7\0\6D\0\0\0\0\5", 8 },
    { "\7\0\6D\0\0\0\0\7\7\0\6D\0\0\0\0\2", 18 },
};

/* Keepers: how their line begins, the last of their bytes, and their count; their other bytes are the filling. */
static const struct {
    const char *start;
    uint8_t last;
    uint32_t count;
} keepers[] = {
    { "", FILLING, 0 },
    { ";", FILLING, 0 },
    { "A", FILLING, 1 },
    { "A;", FILLING, 2 },
    { "A;B", FILLING, 3 },
    { "A;B;", FILLING, 4 },
    { "A:\"x;", FILLING, 5 },
    { "A/*x*", FILLING, 5 },
    { "A", FILLING, MML_TEXT_MAX - 1 },
    { "A:\"", FILLING, MML_TEXT_MAX - 1 },
    { "A", FILLING, MML_TEXT_MAX },
    { "A", ';', MML_TEXT_MAX },
    { "A:\"", ';', MML_TEXT_MAX },
    { "A", ';', MML_TEXT_MAX + 1 },
    { "A", ';', UINT32_MAX },
};

/* A row's slots that are lent to be filled: none, one, and more than there are places. */
static const size_t slots[] = { 0, 1, MML_PLACES_MAX + 1 };

static struct field inputs[2], outs, rows;
static uint8_t plain[MML_RECORD_MAX], filling[MML_RECORD_MAX], record[MML_RECORD_MAX];
static uint32_t plain_row[MML_PLACES_MAX + 1], soiled[MML_PLACES_MAX + 1], offsets[MML_PLACES_MAX];
static unsigned long calls;

static sigjmp_buf before_touch;

/* Tells of a failure and ends the program. */
static void fail(const char *what)
{
    fprintf(stderr, "pointers: %s\n", what);
    exit(FAILED);
}

/* Ends the program at a touch of a page without access; write and _exit may be called here. */
static void touched(int signal)
{
    static const char what[] = "pointers: a byte outside the lent buffers is read or written\n";

    (void)signal;
    if (write(STDERR_FILENO, what, sizeof what - 1) < 0)
        _exit(STOPPED);
    _exit(FAILED);
}

static void go_back(int signal)
{
    (void)signal;
    siglongjmp(before_touch, 1);
}

/* Is the program stopped when it reads this byte? */
static int stops_at(const volatile uint8_t *at)
{
    if (sigsetjmp(before_touch, 1) != 0)
        return 1;
    (void)*at;
    return 0;
}

/* Is a change of this byte seen? */
static int is_seen(const struct lent *one, uint8_t *at)
{
    int seen;

    *at ^= 1;
    seen = is_harmed(one);
    *at ^= 1;
    return seen && !is_harmed(one);
}

/* The test of the test: the pages without access stop the program, and each watched byte is watched. */
static void see_the_watch(void)
{
    on_touch(go_back);
    for (int position = 0; position < POSITIONS; position++) {
        struct lent one = lend(&outs, position, filling, SPARE);
        uint8_t *end = outs.bytes + outs.room;

        if (!stops_at(outs.bytes - 1) || !stops_at(end) || stops_at(outs.bytes) || stops_at(end - 1))
            fail("the pages around a field do not stop the program");
        if (one.bytes > outs.bytes && !(is_seen(&one, one.bytes - 1) && is_seen(&one, outs.bytes)))
            fail("a byte before the buffer is not watched");
        if (one.bytes + SPARE < end && !(is_seen(&one, one.bytes + SPARE) && is_seen(&one, end - 1)))
            fail("a byte behind the buffer is not watched");
    }
    if (lend(&outs, NOWHERE, NULL, 0).bytes != NULL)
        fail("a buffer that stands nowhere has a pointer");
    on_touch(touched);
}

/* A call: what it is, and its inputs. */
struct call {
    enum { READ, PRINT, ORDER, LIST, READ_ROW, ORDER_ROW, COUNT, MEMBER, PLACE } kind;
    const uint8_t *first, *second;
    size_t first_len, second_len;
    uint64_t k;
    const uint32_t *row;
    size_t row_len;
};

/* Does the call write? */
static int writes(const struct call *call)
{
    return call->kind < COUNT;
}

/* The last of the refusals that the call may answer. */
static unsigned last_refusal(const struct call *call)
{
    return call->kind == MEMBER ? MML_ARGUMENT : call->kind == PLACE ? MML_ROW : MML_NO_ORDER;
}

/* Makes the call with inputs, buffer and row from these places. */
static uint64_t made(const struct call *call, const uint8_t *first, const uint8_t *second, uint8_t *out, size_t room, uint32_t *row)
{
    calls++;
    switch (call->kind) {
    case READ:
        return mml_read(first, call->first_len, second, call->second_len, out, room);
    case PRINT:
        return mml_print(first, call->first_len, out, room);
    case ORDER:
        return mml_order(first, call->first_len, call->k, out, room);
    case LIST:
        return mml_list(first, call->first_len, out, room);
    case READ_ROW:
        return mml_read_row(first, call->first_len, second, call->second_len, out, room, row, call->row_len);
    case ORDER_ROW:
        return mml_order_row(first, call->first_len, call->k, out, room, row, call->row_len);
    case PLACE:
        return mml_place(first, call->first_len, row, call->row_len, (uint32_t)call->k);
    case MEMBER:
        return mml_member(first, call->first_len, (uint32_t)call->k, second, call->second_len);
    default:
        return mml_count(first, call->first_len);
    }
}

/* Makes the call with plain buffers, which have their content from before. */
static uint64_t made_plainly(const struct call *call, size_t room)
{
    memcpy(plain, filling, sizeof plain);
    memcpy(plain_row, soiled, sizeof plain_row);
    if (call->row_len > 0)
        memcpy(plain_row, call->row, call->row_len * sizeof plain_row[0]);
    return made(call, call->first, call->second, plain, room, plain_row);
}

/* The call at these positions does what it did with plain buffers. */
static void try_at(const struct call *call, size_t room, uint64_t expected, int position, int other)
{
    struct lent first = lend(&inputs[0], position, call->first, call->first_len);
    struct lent second = lend(&inputs[1], (position + other) % POSITIONS, call->second, call->second_len);
    struct lent out = lend(&outs, other, filling, room);
    struct lent row = lend(&rows, aligned((position + 2 * other) % POSITIONS), (const uint8_t *)call->row,
                           call->row_len * sizeof call->row[0]);

    if (made(call, first.bytes, second.bytes, out.bytes, room, (uint32_t *)row.bytes) != expected)
        fail("an answer depends on where a buffer stands");
    if (!holds(&out, plain) || !holds(&row, (const uint8_t *)plain_row))
        fail("what is written depends on where a buffer stands");
    if (is_harmed(&out) || is_harmed(&row) || is_harmed(&first) || is_harmed(&second))
        fail("a byte beside a buffer is written");
    if (!holds(&first, call->first) || !holds(&second, call->second))
        fail("an input is written");
}

/* Has the plain row the offsets of the record that is written, so many bytes, and are its other slots as before? */
static int is_filled(const struct call *call, size_t written)
{
    size_t n = 0;

    for (size_t at = 0; at < written; at += 3 + ((size_t)plain[at + 1] << 8 | plain[at + 2])) {
        if (plain[at] != MML_TAG_PLACE)
            continue;
        if (n == call->row_len || plain_row[n] != at)
            return 0;
        n++;
    }
    return memcmp(plain_row + n, call->row + n, (call->row_len - n) * sizeof plain_row[0]) == 0;
}

/* Tries the call with a buffer of this size at all positions. */
static void try_room(const struct call *call, size_t room)
{
    uint64_t expected = made_plainly(call, room);
    size_t written = MML_NUMBER(expected) == MML_DONE && writes(call) ? MML_VALUE(expected) : 0;

    if (MML_NUMBER(expected) > last_refusal(call) || written > room)
        fail("an answer is none");
    if (memcmp(plain + written, filling + written, sizeof plain - written) != 0)
        fail("bytes past the answer are written");
    if (call->row_len > 0 && !is_filled(call, written))
        fail("a slot is wrong, or one beyond the places is written");
    for (int position = 0; position < POSITIONS; position++)
        for (int other = 0; other < POSITIONS; other++)
            try_at(call, room, expected, position, other);
}

/* Tries the call with buffers that are large, just fit, are a byte too short and empty. Gives the answer to the first. */
static uint64_t try_call(struct call call)
{
    uint64_t answer = made_plainly(&call, sizeof plain);
    size_t needed = MML_NUMBER(answer) == MML_DONE ? MML_VALUE(answer) : SPARE;

    if (!writes(&call))
        needed = 0;
    try_room(&call, needed + SPARE);
    try_room(&call, needed);
    if (needed > 0)
        try_room(&call, needed - 1);
    try_room(&call, 0);
    return answer;
}

/* Tries the call with each row that is lent to be filled. */
static void try_filling(struct call call)
{
    call.row = soiled;
    for (size_t i = 0; i < sizeof slots / sizeof slots[0]; i++) {
        call.row_len = slots[i];
        try_call(call);
    }
}

/* Asks for places by the row that was filled last: the first place and one that no record has; then by a row without a slot, and by one
   whose first slot differs. */
static void try_places(const uint8_t *bytes, size_t len)
{
    uint32_t other[MML_PLACES_MAX];

    memcpy(other, offsets, sizeof other);
    other[0] ^= 1;
    try_call((struct call){ PLACE, bytes, NULL, len, 0, 0, offsets, MML_PLACES_MAX });
    try_call((struct call){ PLACE, bytes, NULL, len, 0, MML_PLACES_MAX, offsets, MML_PLACES_MAX });
    try_call((struct call){ PLACE, bytes, NULL, len, 0, 0, NULL, 0 });
    try_call((struct call){ PLACE, bytes, NULL, len, 0, 0, other, MML_PLACES_MAX });
}

/* Tries order k of a record, and its row. */
static void try_order(const uint8_t *bytes, size_t len, uint64_t k)
{
    try_call((struct call){ ORDER, bytes, NULL, len, 0, k, NULL, 0 });
    try_filling((struct call){ ORDER_ROW, bytes, NULL, len, 0, k, NULL, 0 });
}

/* Tries all calls on a record. */
static void try_record(const uint8_t *bytes, size_t len)
{
    uint64_t count = try_call((struct call){ COUNT, bytes, NULL, len, 0, 0, NULL, 0 });

    try_call((struct call){ PRINT, bytes, NULL, len, 0, 0, NULL, 0 });
    try_call((struct call){ LIST, bytes, NULL, len, 0, 0, NULL, 0 });
    for (size_t i = 0; i < sizeof arguments / sizeof arguments[0]; i++)
        try_call((struct call){ MEMBER, bytes, (const uint8_t *)arguments[i].units, len, arguments[i].len, 0, NULL, 0 });
    try_places(bytes, len);
    try_order(bytes, len, 0);
    if (MML_NUMBER(count) != MML_DONE)
        return;
    try_order(bytes, len, MML_VALUE(count) - 1);
    try_order(bytes, len, MML_VALUE(count));
}

/* Tries a command and, if it is accepted, its record, also cut short at its end and at its start. */
static void try_command(const char *text, const char *bases)
{
    struct call read = { READ, (const uint8_t *)text, (const uint8_t *)bases, strlen(text), strlen(bases), 0, NULL, 0 };
    uint64_t answer = try_call(read);
    size_t len = MML_VALUE(answer);

    read.kind = READ_ROW;
    try_filling(read);
    if (MML_NUMBER(answer) != MML_DONE)
        return;
    read.row_len = MML_PLACES_MAX;
    made(&read, read.first, read.second, record, sizeof record, offsets);
    try_record(record, len);
    try_record(record, len - 1);
    try_record(record + ORDERS_LEN, len - ORDERS_LEN);
}

/* The key does to the keeper at this position what it did to a plain one. */
static void try_key_at(const mml_keeper *before, uint8_t key, uint64_t expected, const mml_keeper *after, int position)
{
    struct lent one = lend(&outs, position, (const uint8_t *)before, sizeof *before);

    calls++;
    if (mml_key((mml_keeper *)one.bytes, key) != expected)
        fail("an answer depends on where a keeper stands");
    if (!holds(&one, (const uint8_t *)after))
        fail("what a key changes depends on where its keeper stands");
    if (is_harmed(&one))
        fail("a byte beside a keeper is written");
}

/* Takes the key to the keeper at all positions where one may stand. */
static void try_key(const mml_keeper *before, uint8_t key)
{
    mml_keeper after = *before;
    uint64_t expected = mml_key(&after, key);

    calls++;
    if (MML_NUMBER(expected) == MML_DONE ? MML_VALUE(expected) > 1 : MML_NUMBER(expected) != MML_NO_KEY)
        fail("an answer to a key is none");
    if (MML_NUMBER(expected) != MML_DONE && memcmp(&after, before, sizeof after) != 0)
        fail("a key that is refused changes its keeper");
    for (int position = 0; position < POSITIONS; position++)
        if (aligned(position) == position)
            try_key_at(before, key, expected, &after, position);
}

/* Takes every key to a keeper. */
static void try_keeper(const char *start, uint8_t last, uint32_t count)
{
    mml_keeper keeper;

    memcpy(keeper.bytes, filling, sizeof keeper.bytes);
    memcpy(keeper.bytes, start, strlen(start));
    keeper.bytes[sizeof keeper.bytes - 1] = last;
    keeper.count = count;
    for (unsigned key = 0; key <= UINT8_MAX; key++)
        try_key(&keeper, (uint8_t)key);
}

/* The call answered so. */
static void is(uint64_t answer, unsigned number, uint32_t value)
{
    calls++;
    if (MML_NUMBER(answer) != number || MML_VALUE(answer) != value)
        fail("a call with a null pointer of length 0 answers something else");
}

/* Null for every pointer of every call, alone and together. */
static void try_null(void)
{
    const uint8_t *text = (const uint8_t *)"A;", *bases = (const uint8_t *)"D";
    const uint8_t one[] = { MML_TAG_ORDERS, 0, 4, 0, 0, 0, 1, MML_TAG_CODE_PIECE, 0, 1, 'A' };
    uint8_t out[sizeof one];

    is(mml_read(NULL, 0, bases, 1, out, sizeof out), MML_NO_END, 0);
    is(mml_read(text, 2, NULL, 0, out, sizeof out), MML_DONE, sizeof one);
    is(mml_read(text, 2, bases, 1, NULL, 0), MML_BUFFER_TOO_SHORT, sizeof one);
    is(mml_read(NULL, 0, NULL, 0, NULL, 0), MML_NO_END, 0);
    is(mml_print(NULL, 0, out, sizeof out), MML_RECORD, 0);
    is(mml_print(one, sizeof one, NULL, 0), MML_BUFFER_TOO_SHORT, 2);
    is(mml_print(NULL, 0, NULL, 0), MML_RECORD, 0);
    is(mml_order(NULL, 0, 0, out, sizeof out), MML_RECORD, 0);
    is(mml_order(one, sizeof one, 0, NULL, 0), MML_BUFFER_TOO_SHORT, sizeof one);
    is(mml_order(one, sizeof one, 1, NULL, 0), MML_NO_ORDER, 1);
    is(mml_order(NULL, 0, 0, NULL, 0), MML_RECORD, 0);
    is(mml_count(NULL, 0), MML_RECORD, 0);
    is(mml_list(NULL, 0, out, sizeof out), MML_RECORD, 0);
    is(mml_list(one, sizeof one, NULL, 0), MML_BUFFER_TOO_SHORT, LENGTH_LEN + sizeof one);
    is(mml_list(NULL, 0, NULL, 0), MML_RECORD, 0);
    is(mml_member(NULL, 0, 0, bases, 1), MML_RECORD, 0);
    is(mml_member(one, sizeof one, 0, NULL, 0), MML_NO_PLACE, 0);
    is(mml_member(NULL, 0, 0, NULL, 0), MML_RECORD, 0);
}

/* Null for every pointer of the calls that have a row, alone and together. */
static void try_null_rows(void)
{
    const uint8_t *text = (const uint8_t *)"A:;", *bases = (const uint8_t *)"D";
    const uint8_t one[] = { MML_TAG_ORDERS, 0, 4, 0, 0, 0, 1, MML_TAG_CODE_PIECE, 0, 1, 'A',
                            MML_TAG_BLOCK, 0, 1, 'P', MML_TAG_PLACE, 0, 1, 'D' };
    const uint32_t at = sizeof one - 4;
    uint8_t out[sizeof one];
    uint32_t row[1];

    is(mml_read_row(NULL, 0, bases, 1, out, sizeof out, row, 1), MML_NO_END, 0);
    is(mml_read_row(text, 3, NULL, 0, out, sizeof out, row, 1), MML_DONE, sizeof one);
    is(mml_read_row(text, 3, bases, 1, NULL, 0, row, 1), MML_BUFFER_TOO_SHORT, sizeof one);
    is(mml_read_row(text, 3, bases, 1, out, sizeof out, NULL, 0), MML_BUFFER_TOO_SHORT, 1);
    is(mml_read_row(text, 1, bases, 1, NULL, 0, NULL, 0), MML_NO_END, 1);
    is(mml_read_row(NULL, 0, NULL, 0, NULL, 0, NULL, 0), MML_NO_END, 0);
    is(mml_order_row(NULL, 0, 0, out, sizeof out, row, 1), MML_RECORD, 0);
    is(mml_order_row(one, sizeof one, 0, NULL, 0, row, 1), MML_BUFFER_TOO_SHORT, sizeof one);
    is(mml_order_row(one, sizeof one, 0, out, sizeof out, NULL, 0), MML_BUFFER_TOO_SHORT, 1);
    is(mml_order_row(one, sizeof one, 1, NULL, 0, NULL, 0), MML_NO_ORDER, 1);
    is(mml_order_row(NULL, 0, 0, NULL, 0, NULL, 0), MML_RECORD, 0);
    is(mml_place(NULL, 0, &at, 1, 0), MML_RECORD, 0);
    is(mml_place(one, sizeof one, &at, 1, 0), MML_DONE, 4);
    is(mml_place(one, sizeof one, NULL, 0, 0), MML_ROW, 0);
    is(mml_place(NULL, 0, NULL, 0, 0), MML_RECORD, 0);
}

int main(void)
{
    memset(filling, FILLING, sizeof filling);
    memset(soiled, FILLING, sizeof soiled);
    see_the_watch();
    try_null();
    try_null_rows();
    for (size_t i = 0; i < sizeof commands / sizeof commands[0]; i++)
        try_command(commands[i].text, commands[i].bases);
    try_record((const uint8_t *)"", 0);
    for (size_t i = 0; i < sizeof keepers / sizeof keepers[0]; i++)
        try_keeper(keepers[i].start, keepers[i].last, keepers[i].count);
    printf("%lu calls, every pointer at %d positions, a keeper's and a row's at the aligned ones, answer and write alike\n", calls,
           POSITIONS);
    return 0;
}
