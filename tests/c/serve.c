/*
 * serve - runs the library's calls for another program, which may be built for another processor.
 *
 * A request on standard input: the call (1 byte: 0 read, 1 print, 2 order, 3 count, 4 key, 5 list, 6 member, 7 read_row, 8 order_row,
 * 9 place), k (8 bytes), the lengths of the first input, the second input, the buffer and the row (4 bytes each), all low byte first, then
 * the four contents. The reply on standard output: the answer (8 bytes, low byte first), whether a byte beside the buffer and the row or
 * of an input was written (1 byte), the buffer, and the row. Of the call key the buffer is the keeper, byte for byte, and k the key; of
 * member k is the place, and the second input the argument. A row is its slots, 4 bytes each, low byte first; of place it is an input,
 * and k the place.
 *
 * From call to call the four are lent at other positions (lent.h), a keeper and a row at those where they may stand. A touch of a page
 * without access ends the program.
 */
#include "lent.h"

#include "mml.h"

enum { READ, PRINT, ORDER, COUNT, KEY, LIST, MEMBER, READ_ROW, ORDER_ROW, PLACE };
enum { FIRST, SECOND, OUT, ROW, BUFFERS };
enum { AT_K = 1, K_SIZE = 8, AT_LENGTHS = 9, LENGTH_SIZE = 4, HEAD_SIZE = 25 };
enum { ANSWER_SIZE = 8, SLOT_SIZE = 4 };

/* A content of a request, as it came. */
struct content {
    uint8_t *bytes;
    size_t len;
    size_t room;
};

static struct content contents[BUFFERS];
static struct field fields[BUFFERS];

/* Ends the program at a touch of a page without access; write and _exit may be called here. */
static void touched(int signal)
{
    static const char what[] = "serve: a byte outside the lent buffers is read or written\n";

    (void)signal;
    if (write(STDERR_FILENO, what, sizeof what - 1) < 0)
        _exit(STOPPED);
    _exit(FAILED);
}

/* A number, low byte first. */
static uint64_t low_first(const uint8_t *at, int n)
{
    uint64_t value = 0;
    for (int i = n - 1; i >= 0; i--)
        value = value << 8 | at[i];
    return value;
}

/* Takes one content of a request. */
static void take(struct content *one, size_t len)
{
    if (one->room < len || one->bytes == NULL) {
        free(one->bytes);
        one->room = len + 1;
        one->bytes = malloc(one->room);
    }
    if (one->bytes == NULL)
        stop("there is no memory");
    one->len = len;
    if (fread(one->bytes, 1, len, stdin) != len)
        stop("the request is cut off");
}

/* The number of a place, which k is. */
static uint32_t place_of(uint64_t k)
{
    if (k > UINT32_MAX)
        stop("the place is no number of 32 bits");
    return (uint32_t)k;
}

/* Makes a call that has a row. */
static uint64_t answer_by_row(int call, uint64_t k, const struct lent lent[BUFFERS])
{
    const struct lent *first = &lent[FIRST], *second = &lent[SECOND], *out = &lent[OUT];
    uint32_t *row = (uint32_t *)lent[ROW].bytes;
    size_t slots = lent[ROW].len / SLOT_SIZE;

    if (lent[ROW].len % SLOT_SIZE != 0)
        stop("the row is not whole slots");
    switch (call) {
    case READ_ROW:
        return mml_read_row(first->bytes, first->len, second->bytes, second->len, out->bytes, out->len, row, slots);
    case ORDER_ROW:
        return mml_order_row(first->bytes, first->len, k, out->bytes, out->len, row, slots);
    case PLACE:
        return mml_place(first->bytes, first->len, row, slots, place_of(k));
    default:
        stop("there is no such call");
        return 0;
    }
}

/* Makes the call. */
static uint64_t answer(int call, uint64_t k, const struct lent lent[BUFFERS])
{
    const struct lent *first = &lent[FIRST], *second = &lent[SECOND], *out = &lent[OUT];

    switch (call) {
    case READ:
        return mml_read(first->bytes, first->len, second->bytes, second->len, out->bytes, out->len);
    case PRINT:
        return mml_print(first->bytes, first->len, out->bytes, out->len);
    case ORDER:
        return mml_order(first->bytes, first->len, k, out->bytes, out->len);
    case COUNT:
        return mml_count(first->bytes, first->len);
    case KEY:
        if (out->len != sizeof(mml_keeper))
            stop("the buffer is no keeper");
        return mml_key((mml_keeper *)out->bytes, (uint8_t)k);
    case LIST:
        return mml_list(first->bytes, first->len, out->bytes, out->len);
    case MEMBER:
        return mml_member(first->bytes, first->len, place_of(k), second->bytes, second->len);
    default:
        return answer_by_row(call, k, lent);
    }
}

/* May the call write this of what it is lent? */
static int is_written(int call, int which)
{
    return which == OUT || (which == ROW && (call == READ_ROW || call == ORDER_ROW));
}

/* Was anything written that the call may not write? */
static int anything_harmed(int call, const struct lent lent[BUFFERS])
{
    for (int i = 0; i < BUFFERS; i++)
        if (is_harmed(&lent[i]) || (!is_written(call, i) && !holds(&lent[i], contents[i].bytes)))
            return 1;
    return 0;
}

/* Writes bytes of the reply. */
static void put(const uint8_t *bytes, size_t len)
{
    if (len > 0 && fwrite(bytes, 1, len, stdout) != len)
        stop("the reply cannot be written");
}

/* Writes the reply. */
static void reply(uint64_t result, int harmed, const struct lent lent[BUFFERS])
{
    uint8_t head[ANSWER_SIZE + 1];

    for (int i = 0; i < ANSWER_SIZE; i++)
        head[i] = (uint8_t)(result >> (8 * i));
    head[ANSWER_SIZE] = (uint8_t)harmed;
    put(head, sizeof head);
    put(lent[OUT].bytes, lent[OUT].len);
    put(lent[ROW].bytes, lent[ROW].len);
    if (fflush(stdout) != 0)
        stop("the reply cannot be written");
}

/* Serves one request; the turn decides where the buffers stand. */
static void serve(const uint8_t *head, unsigned turn)
{
    struct lent lent[BUFFERS];
    uint64_t result;

    for (int i = 0; i < BUFFERS; i++) {
        int position = (int)(turn % POSITIONS);

        take(&contents[i], low_first(head + AT_LENGTHS + i * LENGTH_SIZE, LENGTH_SIZE));
        if (i == ROW || (i == OUT && head[0] == KEY))
            position = aligned(position);
        lent[i] = lend(&fields[i], position, contents[i].bytes, contents[i].len);
        turn /= POSITIONS;
    }
    result = answer(head[0], low_first(head + AT_K, K_SIZE), lent);
    reply(result, anything_harmed(head[0], lent), lent);
}

int main(void)
{
    uint8_t head[HEAD_SIZE];
    unsigned turn = 0;

    on_touch(touched);
    while (fread(head, 1, sizeof head, stdin) == sizeof head)
        serve(head, turn++);
    return 0;
}
