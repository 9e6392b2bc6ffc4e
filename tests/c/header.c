/*
 * header - include/mml.h by itself, as C and as C++ with all warnings: it needs no other header before it, may come twice, and
 * every name of it can be used. The program also sees that the numbers are those of the paper and that the calls link.
 */
#include "mml.h"
#include "mml.h"

static const char version[] = MML_VERSION;
static const unsigned sizes[] = { MML_TEXT_MAX, MML_RECORD_MAX, MML_BASES_MAX, MML_PLACES_MAX };
static const unsigned keys[] = { MML_KEY_BS, MML_KEY_CAN };

static const unsigned refusals[] = {
    MML_DONE, MML_BASE_LETTER, MML_TEXT_TOO_LONG, MML_BYTE_NOT_PERMITTED, MML_NOT_CLOSED, MML_NO_TOKEN, MML_NO_END, MML_AFTER_END,
    MML_CODE, MML_KIND, MML_NAME, MML_ALTERNATION, MML_UNIT, MML_NUMERAL_TOO_BIG, MML_GROUP, MML_LIMIT, MML_TOO_MANY,
    MML_BUFFER_TOO_SHORT, MML_RECORD, MML_NO_ORDER, MML_NO_KEY, MML_NAME_TWICE
};

/* The refusals from 26 on. */
static const unsigned later_refusals[] = { MML_NO_PLACE, MML_ARGUMENT, MML_ROW };

static const unsigned tags[] = {
    0, MML_TAG_CODE_PIECE, MML_TAG_BLOCK, MML_TAG_PLACE, MML_TAG_NAME_PIECE, MML_TAG_SINGLE, MML_TAG_RANGE, MML_TAG_NUMERAL,
    MML_TAG_KEYED, MML_TAG_IDENTIFIER, MML_TAG_SYMBOLIC_NAME, MML_TAG_STRING, MML_TAG_ORDERS
};

static const unsigned length_tag = MML_TAG_LENGTH;

/* Do the numbers count up from the first? */
static int count_up(unsigned first, const unsigned *numbers, size_t n)
{
    size_t i;

    for (i = 0; i < n; i++)
        if (numbers[i] != first + i)
            return 0;
    return 1;
}

/* Is an answer taken apart whole? */
static int taken_apart(void)
{
    const uint64_t highest = ~UINT64_C(0), answer = UINT64_C(0x0123456789ABCDEF);

    return MML_NUMBER(answer) == 0x01234567u && MML_VALUE(answer) == 0x89ABCDEFu && MML_NUMBER(highest) == MML_VALUE(highest);
}

/* Is a keeper laid out as the library has it? */
static int laid_out(void)
{
    return sizeof(mml_keeper) == 1028 && offsetof(mml_keeper, bytes) == 0 && offsetof(mml_keeper, count) == 1024;
}

/* Does a keeper take a key, and refuse the next when its count passes its bytes? */
static int kept(void)
{
    mml_keeper keeper;
    uint64_t taken, refused;

    keeper.count = 0;
    taken = mml_key(&keeper, ';');
    if (taken != 1 || keeper.count != 1 || keeper.bytes[0] != ';')
        return 0;
    keeper.count = MML_TEXT_MAX + 1;
    refused = mml_key(&keeper, MML_KEY_CAN);
    return MML_NUMBER(refused) == MML_NO_KEY && MML_VALUE(refused) == MML_TEXT_MAX && keeper.count == MML_TEXT_MAX + 1;
}

/* Does each other call answer, here refused? */
static int linked(void)
{
    return MML_NUMBER(mml_read(NULL, 0, NULL, 0, NULL, 0)) == MML_NO_END && MML_NUMBER(mml_print(NULL, 0, NULL, 0)) == MML_RECORD
           && MML_NUMBER(mml_order(NULL, 0, 0, NULL, 0)) == MML_RECORD && MML_NUMBER(mml_count(NULL, 0)) == MML_RECORD
           && MML_NUMBER(mml_list(NULL, 0, NULL, 0)) == MML_RECORD && MML_NUMBER(mml_member(NULL, 0, 0, NULL, 0)) == MML_RECORD
           && MML_NUMBER(mml_read_row(NULL, 0, NULL, 0, NULL, 0, NULL, 0)) == MML_NO_END
           && MML_NUMBER(mml_order_row(NULL, 0, 0, NULL, 0, NULL, 0)) == MML_RECORD
           && MML_NUMBER(mml_place(NULL, 0, NULL, 0, 0)) == MML_RECORD;
}

int main(void)
{
    if (!count_up(0, refusals, sizeof refusals / sizeof refusals[0])
        || !count_up(26, later_refusals, sizeof later_refusals / sizeof later_refusals[0])
        || !count_up(0, tags, sizeof tags / sizeof tags[0]) || length_tag != 14)
        return 1;
    if (version[0] - '0' != MML_VERSION_MAJOR || version[1] != '.' || version[2] - '0' != MML_VERSION_MINOR || version[3] != 0)
        return 2;
    if (sizes[0] != 1024 || sizes[1] != 65536 || sizes[2] != 32 || sizes[3] != 32 || keys[0] != 8 || keys[1] != 24)
        return 3;
    if (!taken_apart())
        return 4;
    if (!laid_out())
        return 5;
    return kept() && linked() ? 0 : 6;
}
