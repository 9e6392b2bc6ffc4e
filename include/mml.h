/*
 * mml.h - the C interface of the verified MML command translator (libmml.a).
 *
 * A command is a line of text as an operator types it, for example
 *
 *     SET-ATT:LIN=7-1&&-3,LEV=3.5;
 *
 * A record is the same command as tagged fields, ready for a program. An order is a record in
 * which each group of arguments is reduced to one argument; the command above has three
 * orders. There are ten calls:
 *
 *     mml_key        keeper and key         ->  keeper, and whether its line is ready
 *     mml_read       text and base letters  ->  record
 *     mml_print      record                 ->  text
 *     mml_count      record                 ->  number of orders
 *     mml_order      record and k           ->  order number k, as a record
 *     mml_list       record                 ->  all orders, each behind its length
 *     mml_member     record, place number   ->  whether the argument stands in that place, and
 *                    and argument               where it does first
 *     mml_read_row   text and base letters  ->  record, and the row of its places' offsets
 *     mml_order_row  record and k           ->  order number k, and the row of its places'
 *                                               offsets
 *     mml_place      record, row and place  ->  that place's fields, as part of the record
 *                    number                     itself
 *
 * ANSWERS. Each call answers one 64-bit number: a refusal number times 2^32, plus a value.
 * Take it apart with MML_NUMBER and MML_VALUE.
 *
 *     number 0        the call succeeded; the value is the number of bytes written at the
 *                     start of out (mml_count: the number of orders; mml_key: 1 if the line is
 *                     ready, else 0; mml_member: 1 + the position if the argument stands there,
 *                     else 0; mml_place: the number of bytes of the place's fields)
 *     another number  the call refused; the value is the place (see the list below)
 *
 * A call that succeeds leaves the rest of out, and the rest of a row, as it was. A call that
 * refuses changes no byte: nothing is written to out or to a row, and a keeper stays as it was.
 * The inputs are never written.
 *
 * POINTERS. A pointer may be anything valid for its length in bytes; there is no alignment and
 * nothing is zero-terminated. With length 0 a pointer may be anything, NULL too: nothing is
 * read or written through it. out must not overlap an input. A keeper's pointer leads to a
 * mml_keeper, aligned as the compiler lays one out, and is never NULL. A row's pointer leads to
 * so many uint32_t, the length in slots and not in bytes, aligned as the compiler lays them out;
 * a row that is filled overlaps neither out nor an input.
 *
 * KEYS. A line keeper takes what an operator types, one key at a time, and says when the line
 * is ready for mml_read:
 *
 *     mml_keeper keeper;
 *     keeper.count = 0;
 *     ...
 *     answer = mml_key(&keeper, key);
 *     if (answer == 1) mml_read(keeper.bytes, keeper.count, ...);
 *
 * BS (8) removes the last byte held, and does nothing on an empty line. CAN (24) empties the
 * line. Any other key is held, as it is. A semicolon outside string and comment makes the line
 * ready; the next key starts an empty line. What a string and a comment are, mml_read's own
 * rules say, of the bytes held. mml_read never refuses a ready line with 4, 6 or 7, but it may
 * refuse it with other numbers. It refuses BS and CAN in a text with 3.
 *
 * Whether a line is ready depends on the bytes held alone: their last byte is a semicolon
 * outside string and comment, and the first such one. So a keeper that the program filled by
 * itself is as good as one that keys filled.
 *
 * THREADS AND MEMORY. The library has no state and allocates nothing: any number of threads
 * may call at once, also from an interrupt or a signal handler that has the stack for it:
 * mml_read and mml_read_row take less than 16 KiB, mml_key less than 3 KiB, mml_list less
 * than 1,536 bytes, every other call less than 1 KiB, by the frames of the compiled code.
 *
 * LINKING. libmml.a is x86-64 code for Linux. It calls two functions that it does not have,
 * memcpy and memset, which every C library has; without a C library, give it them.
 *
 * SIZES. An out of these sizes always suffices:
 *
 *     mml_read, mml_read_row    MML_RECORD_MAX bytes
 *     mml_print                 MML_TEXT_MAX bytes
 *     mml_order, mml_order_row  record_len bytes: an order is never longer than its record
 *     mml_list                  record_len + 7 bytes for each order
 *
 * With less, refusal 17 tells the bytes needed: call first with out_len 0 to learn the size. Ask so
 * for a list: that of the command A:0&&4094,0&&15; has 3,538,080 bytes. A row of MML_PLACES_MAX
 * slots always suffices.
 *
 * RECORDS. A record is a sequence of fields:
 *
 *     1 byte   the tag
 *     2 bytes  the length of the content, high byte first
 *     content  so many bytes; numbers in it have the high byte first
 *
 *     tag  field           content
 *      1   code piece      an identifier
 *      2   block           P if its places are unnamed, N if they are named
 *      3   place           its base letter: D, H, O, B or K
 *      4   name piece      an identifier; behind the first also an index number, all digits
 *      5   single element  empty: the element is one argument
 *      6   range element   upper end (4 bytes), increment (4 bytes)
 *      7   numeral         base letter D, H, O or B (1 byte), number of fraction digits (1 byte),
 *                          value (4 bytes): the whole number without the full stop, so that
 *                          3.50 is D, 2, 350; fraction digits only with D, 0 to 9 of them
 *      8   keyed numeral   its characters: 0 to 9, *, #, A to D; no small letter
 *      9   identifier      its characters: a letter, then letters and digits
 *     10   symbolic name   its characters: letters, digits, + # %
 *     11   string          its bytes, a doubled quotation mark once; perhaps empty
 *     12   orders          the number of the record's orders (4 bytes), 1 to 65,535
 *
 * The field orders stands first, in 7 bytes, and nowhere else. The others stand behind it in the
 * order of the text:
 *
 *     command  1 to 3 code pieces, then up to 8 blocks
 *     block    the field block, then its places; at most 32 places in all blocks together; in a
 *              block N no two places have the same name, all pieces equal byte for byte
 *     place    the field place, then in a block N 1 to 4 name pieces, then the value;
 *              an omitted place (in a block P only) has no value: the next field is a place or
 *              a block, or the record ends
 *     value    1 to 64 elements
 *     element  the field single or range element, then 1 to 4 units, as many as in every other
 *              element of the value; the units of a compound argument are all there, also
 *              where the text has the short form
 *     unit     a field with a tag from 7 to 11
 *
 * In a range element the last unit is a numeral without fraction digits, the lower end; upper
 * is not below it, and the increment is at least 1. The range names lower, lower + increment
 * and so on, none above upper. In an order every element is single, and every value has one.
 *
 * The number of orders is the product of the values' numbers of arguments; an omitted place
 * counts one. A record with another number, or without this field, is not well formed. An order
 * has the number 1. Version 1 wrote records without this field: put before each of them these
 * 7 bytes, with the number that mml_count of version 1.3 gives, and it is the record that is
 * written now.
 *
 * A word has at most 32 characters, a string at most 80 bytes, a value at most 4,096
 * arguments, a command at most 65,535 orders. The letters of the places (tag 3), in their
 * order, are the record's own base letters: with them the text that mml_print gives is read
 * back. examples/c/fields.c walks a record and collects them.
 *
 * A record that comes from elsewhere may be anything. Every call judges all of it first and
 * answers MML_RECORD where it is not well formed; where mml_count succeeds, the tags, lengths
 * and contents are as said here, and its answer is the number in the first field.
 *
 * LISTS. A list is the orders of a record, one behind the other from order 0 on, as many as
 * mml_count answers. Before each stands its length in 7 bytes, a field like those of a record:
 *
 *     3 bytes  14 (MML_TAG_LENGTH), 0, 4
 *     4 bytes  the length of the order alone, high byte first
 *     order    so many bytes: what mml_order gives
 *
 * So a list is walked from length to length, and the k-th step is at order k:
 *
 *     for (at = 0; at < list_len; at += 7 + length) {
 *         length = (uint32_t)list[at + 3] << 24 | (uint32_t)list[at + 4] << 16
 *                  | (uint32_t)list[at + 5] << 8 | list[at + 6];
 *         mml_print(list + at + 7, length, ...);
 *     }
 *
 * The field length stands in lists alone: a list is no record, and a record with this field is
 * not well formed. examples/c/list.c walks a list.
 *
 * MEMBERS. mml_member tells whether an argument stands in a place: before a mass change, whether
 * amplifier 7-117 is touched. Places are counted from 0, through all blocks, omitted ones
 * included. The argument is given as a record has it, by its 1 to 4 unit fields, one behind the
 * other, without the field of the element. Those of 7-117 are these 18 bytes:
 *
 *     7, 0, 6,  'D', 0,  0, 0, 0, 7
 *     7, 0, 6,  'D', 0,  0, 0, 0, 117
 *
 * Arguments are equal when their unit fields are: 3.50 is not 3.5, H'7 is not 7, and an argument
 * with another number of units is none of the place's. The position counts from 0 the arguments
 * of the place, all written out, each range from its lower end on: in 7-1&&-3&-100&&-120 it is
 * 20 for 7-117. Where the argument stands more than once it is the first.
 *
 * Of an argument as it is typed, mml_read makes the unit fields: in the record of A:7-117; read
 * with the base letter of the place, they stand behind the field single element, from byte 22 on.
 * examples/c/member.c asks so.
 *
 * ROWS. A row of offsets tells where each place of a record begins, so that who turns pages need
 * not walk the record from its start. A slot of the row is a number of 32 bits; slot n is the
 * offset of place n: the bytes from the record's first one, the 7 of the field orders included, to
 * the field place (tag 3) of that place. Places are counted from 0, through all blocks, omitted
 * ones included. The row of SET-ATT:LIN=7-1&&-3,LEV=3.5; is 23, 62.
 *
 * mml_read_row and mml_order_row do what mml_read and mml_order do, and also fill a row that the
 * caller lends with the offsets of the record that they write. Slots beyond the places keep their
 * numbers. No offset is 0: who sets all slots to 0 before sees by them how many places there are.
 *
 *     uint32_t row[MML_PLACES_MAX] = { 0 };
 *     answer = mml_read_row(text, text_len, bases, bases_len, record, MML_RECORD_MAX,
 *                           row, MML_PLACES_MAX);
 *
 * mml_place tells how many bytes the fields of a place have. They begin where its slot says, so
 * they are handed back as part of the record itself:
 *
 *     answer = mml_place(record, record_len, row, MML_PLACES_MAX, n);
 *     if (MML_NUMBER(answer) == MML_DONE) show(record + row[n], MML_VALUE(answer));
 *
 * These are the field place, in a block N the name pieces, and the value; an omitted place has its
 * field place alone, 4 bytes. Record and row may come from elsewhere and be anything: each call
 * judges the whole record (18), then the whole row (28), whatever place is asked for. A row that is
 * let pass has in its first slots the offsets of all places; slots behind them are not looked at.
 *
 * A record and its row that the library wrote by one call, unchanged since, need no judging: there
 * row[n] is the offset of place n, for every n below the number of places, and a page may be turned
 * by it without a call. The fields of place n end where, walking from field to field, the next
 * field place or block begins, and if there is none where the record ends:
 *
 *     end = row[n];
 *     do
 *         end += 3 + ((size_t)record[end + 1] << 8 | record[end + 2]);
 *     while (end < record_len && record[end] != MML_TAG_PLACE && record[end] != MML_TAG_BLOCK);
 *
 * examples/c/index.c turns pages in both ways.
 */

#ifndef MML_H
#define MML_H

#include <stddef.h>
#include <stdint.h>

#ifdef __cplusplus
extern "C" {
#endif

/* The version of the interface. */
#define MML_VERSION "2.3"
#define MML_VERSION_MAJOR 2
#define MML_VERSION_MINOR 3

/* The longest text that is read or printed, and the longest line that is kept, in bytes. */
#define MML_TEXT_MAX 1024u

/* No record is longer, in bytes; the longest has 62,372. */
#define MML_RECORD_MAX 65536u

/* The most base letters, and so the most places of a command. */
#define MML_BASES_MAX 32u

/* The most places of a command: a row of so many slots always suffices. */
#define MML_PLACES_MAX 32u

/* The keys that correct a line. */
#define MML_KEY_BS 8u
#define MML_KEY_CAN 24u

/* MML_NUMBER, the number of an answer: 0 for success, else the refusal.
   MML_VALUE, the value of an answer: bytes written, number of orders, 1 for a ready line, 1 + the
   position of an argument, bytes of a place's fields, or the place of the refusal. The answer is a
   uint64_t. */
#ifdef __cplusplus
#define MML_NUMBER(answer) (static_cast<unsigned>((answer) >> 32))
#define MML_VALUE(answer) (static_cast<uint32_t>((answer) & 0xFFFFFFFFu))
#else
#define MML_NUMBER(answer) ((unsigned)((answer) >> 32))
#define MML_VALUE(answer) ((uint32_t)((answer) & 0xFFFFFFFFu))
#endif

/*
 * The refusals. "Place" is counted in bytes of the text from 0 unless said otherwise.
 *
 *    mml_read and mml_read_row answer the first of 1 to 17 and 21 that applies, 21 between 10 and
 *    11; mml_print 18, 2 or 17, mml_order and mml_order_row 18, 19 or 17, mml_count 18, mml_list
 *    18 or 17, mml_member 18, 26 or 27, mml_place 18, 28 or 26, mml_key 20.
 */
enum {
    MML_DONE = 0,

    /* A base letter is none of D, H, O, B, K, or there is a 33rd. Place: its index. */
    MML_BASE_LETTER = 1,

    /* The text is longer than 1,024 bytes; of mml_print: it would be. Place: 1,024. */
    MML_TEXT_TOO_LONG = 2,

    /* A byte is not permitted: only 9 to 13 and 32 to 126 are. Place: the byte. */
    MML_BYTE_NOT_PERMITTED = 3,

    /* A string or a comment is not closed. Place: its opening. */
    MML_NOT_CLOSED = 4,

    /* A byte starts no token, as a slash alone. Place: the byte. */
    MML_NO_TOKEN = 5,

    /* The command has no semicolon. Place: the length of the text. */
    MML_NO_END = 6,

    /* Something stands after the semicolon. Place: it. */
    MML_AFTER_END = 7,

    /* The command code is not 1 to 3 identifiers joined by hyphens. Place: the first token
       that does not fit. */
    MML_CODE = 8,

    /* The place is named and its block's first place is not, or the other way round. Place:
       the place's first token. */
    MML_KIND = 9,

    /* The name is not 1 to 4 pieces joined by hyphens, an identifier first. Place: the first
       token that does not fit. */
    MML_NAME = 10,

    /* In a value, units and joining separators do not alternate, or a named value is empty.
       Place: the first token that does not fit. */
    MML_ALTERNATION = 11,

    /* A unit cannot be read under the base of its place. Place: the unit. */
    MML_UNIT = 12,

    /* A numeral is above 4,294,967,295 or has more than 9 fraction digits. Place: the unit. */
    MML_NUMERAL_TOO_BIG = 13,

    /* A rule of grouping is broken. Place: the separator or unit that breaks it. */
    MML_GROUP = 14,

    /* A limit is passed: a word of 32 characters, a string of 80, 8 blocks, 32 places, 64
       elements of a value. Place: what passes it. */
    MML_LIMIT = 15,

    /* A value has over 4,096 arguments, or the command over 65,535 orders. Place: the value
       with which it does. */
    MML_TOO_MANY = 16,

    /* The buffer is too short. Place: the bytes needed. Of mml_read_row and mml_order_row also,
       where the buffer suffices: the row is too short. Place: the slots needed. A place above
       out_len is bytes, any other slots. */
    MML_BUFFER_TOO_SHORT = 17,

    /* The record is not well formed. Place: 0. */
    MML_RECORD = 18,

    /* There is no order k. Place: the number of orders. */
    MML_NO_ORDER = 19,

    /* The key is not taken: it was to be held, and 1,024 bytes of a line not ready are held; or
       the keeper's count passes 1,024, and then no key is taken. Place: 1,024. */
    MML_NO_KEY = 20,

    /* The name stands already in its block, all pieces equal byte for byte; in another block it
       may stand again. Place: the second name's first token. */
    MML_NAME_TWICE = 21,

    /* The record has no such place; of mml_member also: the place is omitted. Place: the number
       asked for. */
    MML_NO_PLACE = 26,

    /* The argument is not 1 to 4 unit fields that could stand under the base of its place.
       Place: 0. */
    MML_ARGUMENT = 27,

    /* The row is not the record's: it is shorter than the places, or a slot differs from the offset
       of its place. Place: the first slot that is missing or differs. */
    MML_ROW = 28
};

/* The tags of a record's fields; RECORDS above says what they hold. */
enum {
    MML_TAG_CODE_PIECE = 1,
    MML_TAG_BLOCK = 2,
    MML_TAG_PLACE = 3,
    MML_TAG_NAME_PIECE = 4,
    MML_TAG_SINGLE = 5,
    MML_TAG_RANGE = 6,
    MML_TAG_NUMERAL = 7,
    MML_TAG_KEYED = 8,
    MML_TAG_IDENTIFIER = 9,
    MML_TAG_SYMBOLIC_NAME = 10,
    MML_TAG_STRING = 11,
    MML_TAG_ORDERS = 12
};

/* The tag of an order's length in a list; LISTS above says what it holds. No record has it. */
enum { MML_TAG_LENGTH = 14 };

/*
 * A line keeper: the line that it holds is the first count of its bytes. With count 0 it is
 * empty, whatever its bytes are. The bytes behind the line are of no account, and a key changes
 * none of them but the one that it is held in.
 */
typedef struct {
    uint8_t bytes[MML_TEXT_MAX];
    uint32_t count;
} mml_keeper;

/*
 * Takes one key to a line; KEYS above says what it does. The value is 1 if the line is ready
 * after it, else 0. A key walks over the line only where the line ends with a semicolon, before
 * the key or after it.
 */
uint64_t mml_key(mml_keeper *keeper, uint8_t key);

/*
 * Reads one command. The n-th base letter (D decimal, H hexadecimal, O octal, B binary,
 * K keyed) is the default base of the command's n-th place, counted through all blocks,
 * omitted places included; places past the last letter have D. These letters are capitals; in
 * the text a base prefix, a hexadecimal digit and a keyed letter may be small, and the record
 * holds their capitals. Identifiers and symbolic names are held as they are typed.
 */
uint64_t mml_read(const uint8_t *text, size_t text_len,
                  const uint8_t *bases, size_t bases_len,
                  uint8_t *out, size_t out_len);

/*
 * Prints a record as a command in its shortest plain form, without comments and spacing, base
 * prefixes, hexadecimal digits and keyed letters as capitals. Read with the record's own base
 * letters, the text gives the same record again.
 */
uint64_t mml_print(const uint8_t *record, size_t record_len,
                   uint8_t *out, size_t out_len);

/*
 * Gives order number k of a record, counted from 0, as a record of one order. The last place
 * runs fastest.
 * The cost does not depend on how many arguments a range names.
 */
uint64_t mml_order(const uint8_t *record, size_t record_len, uint64_t k,
                   uint8_t *out, size_t out_len);

/*
 * Gives the number of orders of a record, 1 to 65,535: the record is judged as in every other
 * call, and the answer is the number in its first field. Writes nothing.
 */
uint64_t mml_count(const uint8_t *record, size_t record_len);

/*
 * Writes all orders of a record, one behind the other, each behind its length; LISTS above says
 * how. Refuses a record that is not well formed with 18, then an out that is too short with 17,
 * whose place is the bytes that the whole list needs; nothing is written then. So a call with
 * out_len 0 tells the size, which is below 2^32, and unrolls no group for it. The record is judged
 * once, and an order costs less than by mml_order.
 */
uint64_t mml_list(const uint8_t *record, size_t record_len,
                  uint8_t *out, size_t out_len);

/*
 * Tells whether an argument stands in a place of a record, and where it does first; MEMBERS above
 * says how both are given. The value is 0 for no, and 1 + the position, up to 4,096, for yes.
 * Refuses a record that is not well formed with 18, then a place that the record lacks or that is
 * omitted with 26, then an argument that could not stand there with 27. Writes nothing.
 * The cost does not depend on how many arguments a range names.
 */
uint64_t mml_member(const uint8_t *record, size_t record_len, uint32_t place,
                    const uint8_t *argument, size_t argument_len);

/*
 * Reads one command as mml_read does, and fills the row with the offsets of its places; ROWS above
 * says what they are. The value is the bytes written to out. Refuses as mml_read does, then, where
 * out suffices, a row with fewer slots than the command has places with 17, whose place is the
 * slots needed. A refusal writes neither out nor row.
 */
uint64_t mml_read_row(const uint8_t *text, size_t text_len,
                      const uint8_t *bases, size_t bases_len,
                      uint8_t *out, size_t out_len,
                      uint32_t *row, size_t row_len);

/*
 * Gives order number k of a record as mml_order does, and fills the row with the offsets of the
 * order's places, not of the record's. The value is the bytes written to out. Refuses as mml_order
 * does, then a row that is too short as mml_read_row does.
 */
uint64_t mml_order_row(const uint8_t *record, size_t record_len, uint64_t k,
                       uint8_t *out, size_t out_len,
                       uint32_t *row, size_t row_len);

/*
 * Hands back the fields of a place by the record's row: they begin at record + row[place], and the
 * value is how many bytes they have, 4 or more. Refuses a record that is not well formed with 18,
 * then a row that is not the record's with 28, then a place that the record lacks with 26. Writes
 * nothing.
 */
uint64_t mml_place(const uint8_t *record, size_t record_len,
                   const uint32_t *row, size_t row_len, uint32_t place);

#ifdef __cplusplus
}
#endif

#endif
