/* USS slave and master: the calls for C.
 *
 * A telegram is the bytes 02, LGE, ADR, n net bytes, BCC; n = LGE - 2 is 1 to 252, so a telegram has 5 to 256 bytes. The
 * net bytes are a parameter area (PKW) of 0, 3 or 4 words and a process area (PZD) of 0 to 4 words, high byte first.
 *
 * What holds of every call, for any input:
 *   - it returns; it keeps no state and takes no memory, and calls nothing but, on some chips, functions of the compiler's own library
 *     (docs/CHIPS.md); so calls on different data may run at once;
 *   - it reads only the bytes lent to it, and writes only what its own text names;
 *   - a refusal (a number of 10 and more) writes nothing, reports length 0, and gives back the control words it was given.
 *
 * What the caller owes: each pointer is valid for its count of elements for the time of the call, and properly aligned;
 * what is written (page, values, places, reply, out) does not overlap anything else that is lent to the same call. A count of 0
 * may come with any pointer, NULL too.
 *
 * Structs go by value. Their layout is that of the chip's own C compiler (docs/CHIPS.md has the chips): no field is packed,
 * and sizes are 3, 8, 4, 16, 16, 8, 20, 16, 8, 32 and 16 bytes in the order below on each of them. On a 32-bit chip size_t has 32
 * bits, and a count no more. Static asserts of each size and offset are compiled for each target.
 */
#ifndef USS_H
#define USS_H

#include <stddef.h>
#include <stdint.h>

#ifdef __cplusplus
extern "C" {
#endif

/* The version of this header and of the archive that comes with it; the text says the three numbers. CHANGELOG.md says what a
 * step of each number means. */
#define USS_VERSION_MAJOR 0
#define USS_VERSION_MINOR 5
#define USS_VERSION_PATCH 0
#define USS_VERSION "0.5.0"

/* A buffer for a reply or a built telegram has at least this many bytes, however short the telegram is. A receiver's page of so many
 * takes every telegram. */
#define USS_BUFFER 256
/* An item of uss_receive: a number under this is a byte, this and any above it a pause. */
#define USS_PAUSE 256
/* A buffer of this many bytes takes every listing. */
#define USS_LISTING 64
/* A record of the parameter table has this many bytes; a table has at most 512 records and 4096 values. */
#define USS_RECORD 12

/* ---- answer numbers: when each is given. Their order is with the calls; docs/PROTOCOL.md, Answer numbers, has the whole */

enum uss_number {
    USS_REPLIED = 0,         /* slave: a reply is written; build: a telegram; fill: a list; read: a reply; show: a figure; view: open */
    USS_MIRRORED = 1,        /* slave: the telegram itself is the reply */
    USS_TAKEN = 2,           /* slave: a broadcast was taken; there is no reply */

    USS_SHORT = 10,          /* fewer than 5 bytes received */
    USS_START = 11,          /* first byte not 02 */
    USS_LGE = 12,            /* LGE not 3 to 254 */
    USS_COUNT = 13,          /* byte count not LGE + 2 */
    USS_CHECK = 14,          /* BCC wrong */
    USS_ADDRESS = 15,        /* ADR bit 7, or bits 5 and 6 together; in a reply also bit 5 or bit 6 */
    USS_OTHER_NODE = 16,     /* not a broadcast, and another node's */
    USS_OTHER_LENGTH = 17,   /* not a mirror, and not 2 * (PKW + PZD) net bytes */
    USS_VOID_BROADCAST = 18, /* a broadcast that commands nothing */

    USS_BAD_SETUP = 20,      /* node over 31, PKW not 0, 3, 4, PZD over 4, or both 0 */
    USS_BAD_TABLE = 21,      /* the table breaks a rule */
    USS_BAD_VALUES = 22,     /* value count wrong, or a value outside its limits */
    USS_SHORT_REPLY = 23,    /* reply buffer under 256 bytes */
    USS_BAD_PLACES = 25,     /* list not one place per record, or not the sums */

    USS_UNFIT_SETUP = 30,    /* master: set-up as 20 */
    USS_NOT_ASKABLE = 31,    /* master: request not expressible */
    USS_SHORT_OUT = 32,      /* master: buffer under 256 bytes */
    USS_NOT_THE_REPLY = 33,  /* master: a sound telegram, but no reply to this task */

    USS_BAD_REFERENCE = 50   /* hertz: reference not 1 to 650 */
};
#define USS_DONE USS_REPLIED

/* ---- parameter errors: the value of a reply with ID 7; docs/PROTOCOL.md, Parameter errors, has their order */

enum uss_error {
    USS_NO_PARAMETER = 0,    /* no such parameter, or a base over 1999 */
    USS_NOT_WRITABLE = 1,    /* parameter not writable */
    USS_OUTSIDE_LIMITS = 2,  /* value outside the limits */
    USS_NO_ELEMENT = 3,      /* array, and index not below its element count */
    USS_NO_ARRAY = 4,        /* not an array, and index over 1 */
    USS_OTHER_WIDTH = 5,     /* word task on a double parameter, or the reverse */
    USS_NEEDS_FOUR = 102,    /* double parameter in a three-word area */
    USS_NO_SUCH_TASK = 106   /* task 4, 5, 10 or 15 */
};

/* ---- rules of a table and its values, in the order in which uss_check_table looks at them */

enum uss_rule {
    USS_RULE_KEPT = 0,            /* none is broken */
    USS_RULE_PART_RECORD = 1,     /* the length is not whole records of 12 bytes */
    USS_RULE_MANY_RECORDS = 2,    /* more than 512 records */
    USS_RULE_NUMBER_ORDER = 3,    /* number not over that of the record before it */
    USS_RULE_HIGH_NUMBER = 4,     /* number over 31999 */
    USS_RULE_MANY_ELEMENTS = 5,   /* elements over 254 */
    USS_RULE_SPARE_BIT = 6,       /* a spare bit is set */
    USS_RULE_UPPER_HALF = 7,      /* a word's limit has an upper half */
    USS_RULE_LIMIT_ORDER = 8,     /* minimum over maximum */
    USS_RULE_MANY_PLACES = 9,     /* over 4096 places with this record */
    USS_RULE_VALUE_COUNT = 10,    /* another number of values than the table has places */
    USS_RULE_OUTSIDE_LIMITS = 11  /* a value outside its record's limits */
};

/* ---- task IDs; docs/PROTOCOL.md, Tasks, has what each does. The index counts in all but 0 and 9. */

enum uss_task {
    USS_TASK_NONE = 0,
    USS_READ = 1,
    USS_CHANGE_WORD = 2,           /* 14 asks for saving too */
    USS_CHANGE_DOUBLE = 3,         /* 13 asks for saving too */
    USS_READ_ELEMENT = 6,
    USS_CHANGE_ELEMENT_WORD = 7,   /* 12 asks for saving too */
    USS_CHANGE_ELEMENT_DOUBLE = 8, /* 11 asks for saving too */
    USS_COUNT_ELEMENTS = 9
};

/* ---- reply IDs */

enum uss_reply_id {
    USS_ID_NONE = 0,           /* answer to task 0, or no parameter area */
    USS_ID_WORD = 1,
    USS_ID_DOUBLE = 2,
    USS_ID_ELEMENT_WORD = 4,
    USS_ID_ELEMENT_DOUBLE = 5,
    USS_ID_ELEMENTS = 6,       /* answer to task 9 */
    USS_ID_ERROR = 7,          /* the value is a parameter error */
    USS_ID_NO_RIGHT = 8        /* the master has no right to change */
};

/* ---- structs */

/* node 0 to 31; words of the parameter area, 0, 3 or 4; words of the process area, 0 to 4; not both 0. */
typedef struct {
    uint8_t node, pkw, pzd;
} uss_setup;

/* Control, status or process words, the first in w1. */
typedef struct {
    uint16_t w1, w2, w3, w4;
} uss_words;

/* What a receiver keeps from call to call; 0 at the start. 0 is disarmed, 1 armed, 1 + k inside a telegram of which k bytes (1 to
 * 255) stand at the start of the page; any other number is disarmed, and given back as 0. */
typedef struct {
    uint32_t state;
} uss_receiver;

/* A receiver's answer: how many items it took, the length of the telegram that it hands out, 0 where there is none, and what it
 * keeps for the next call. */
typedef struct {
    uint64_t taken;
    uint32_t length;
    uss_receiver receiver;
} uss_received;

/* A slave call's answer: length is that of the reply, 0 where there is none; control is the control state from now on. */
typedef struct {
    uint32_t number, length;
    uss_words control;
} uss_answer;

/* A build's answer: length is that of the telegram, 0 in a refusal. */
typedef struct {
    uint32_t number, length;
} uss_built;

/* A reading's answer: reply ID, value or error number, and process words; all 0 in a refusal and where there are none. */
typedef struct {
    uint32_t number, id, value;
    uss_words process;
} uss_reply;

/* What a check of a table tells: number 0, 21 or 22; the rule that is broken first; the record at fault, from 0; for a value
 * its place, from 0. All 0 where no rule is broken. */
typedef struct {
    uint32_t number, rule, record, place;
} uss_table_check;

/* A view of a table: number 0, or 21 where the table breaks a rule; at is the record that it stands at, from 0. */
typedef struct {
    uint32_t number, at;
} uss_view;

/* What a view shows of a record: there is 1, and its fields follow. is_double, is_signed and writable are 0 or 1, elements is 0 where
 * there is no array, minimum and maximum are the table's 32 bits: a signed word's -100 is 0x0000FF9C. All 0 where there is no record. */
typedef struct {
    uint32_t there, parameter, is_double, is_signed, writable, elements, minimum, maximum;
} uss_record;

/* What a panel shows of a process word: number 0 or 50; raw is the word where the raw word is shown, value the figure where hertz or
 * percent is. What is not shown is 0, the double positive zero; with 50 both are 0. */
typedef struct {
    uint32_t number, raw;
    double value;
} uss_figure;

/* ---- a parameter table as constant bytes
 *
 * Each of the first four is the 12 bytes of one record, for a table that stays in flash, in C99 and in C++11:
 *
 *     static const uint8_t table[] = {
 *         USS_WORD(700, USS_WRITABLE, 0, 0, 99),
 *         USS_SIGNED_WORD(1082, USS_READ_ONLY, 2, -100, 100)
 *     };
 *
 * All arguments are whole-number constants: number, access, elements (0 = no array), minimum, maximum, the limits as they are
 * written, -100 too. A number over 31999, elements over 254, a limit that the kind cannot hold or a minimum over the maximum is
 * an error of the compiler at that record: an array of negative size, in a macro that says which of them it is. What takes more
 * than one record to see uss_check_table finds. docs/TABLES.md goes from nothing to a table that passes.
 */
#define USS_WORD(number, access, elements, minimum, maximum) \
    USS_RECORD_BYTES(number, 0, access, elements, minimum, maximum, 0, 65535)
#define USS_SIGNED_WORD(number, access, elements, minimum, maximum) \
    USS_RECORD_BYTES(number, 1, access, elements, minimum, maximum, -32768, 32767)
#define USS_DOUBLE(number, access, elements, minimum, maximum) \
    USS_RECORD_BYTES(number, 2, access, elements, minimum, maximum, 0, 4294967295)
#define USS_SIGNED_DOUBLE(number, access, elements, minimum, maximum) \
    USS_RECORD_BYTES(number, 3, access, elements, minimum, maximum, -2147483648, 2147483647)

/* The access of a parameter that a master can only read. */
#define USS_READ_ONLY 0
/* The access of a parameter that a master may change. */
#define USS_WRITABLE 1

/* A word's value as it stands in the values: USS_WORD_VALUE(-100) is 0x0000FF9C. */
#define USS_WORD_VALUE(value) ((value) & 65535)

/* What they are made of. kind is 2 for a double, and 1 more where it is signed; least and most are what the kind can hold. */
#define USS_RECORD_BYTES(number, kind, access, elements, minimum, maximum, least, most) \
    USS_NUMBER_AT_MOST_31999(number) * USS_BYTE(number, 7), \
    USS_BYTE(((number) + 0LL) * 2 + (kind) / 2, 0), \
    USS_ELEMENTS_AT_MOST_254(elements) * USS_ACCESS_IS_0_OR_1(access) * \
        USS_BYTE((kind) % 2 * 128 + (access) * 64 + ((elements) + 0LL) / 4, 0), \
    USS_BYTE(((elements) + 0LL) % 4 * 64, 0), \
    USS_LIMIT_BYTES(minimum, kind, least, most), \
    USS_MINIMUM_AT_MOST_MAXIMUM(minimum, maximum) * USS_LIMIT_BYTES(maximum, kind, least, most)
#define USS_LIMIT_BYTES(limit, kind, least, most) \
    USS_LIMIT_FITS_ITS_KIND(limit, least, most) * ((kind) / 2) * USS_BYTE(limit, 24), \
    ((kind) / 2) * USS_BYTE(limit, 16), \
    USS_BYTE(limit, 8), \
    USS_BYTE(limit, 0)
#define USS_BYTE(x, shift) ((((x) + 0LL) & 4294967295LL) >> (shift) & 255)
/* 1 where it holds; no program where it does not. */
#define USS_HOLDS(test) sizeof(char[(test) ? 1 : -1])
#define USS_NUMBER_AT_MOST_31999(number) USS_HOLDS((number) + 0LL >= 0 && (number) + 0LL <= 31999)
#define USS_ELEMENTS_AT_MOST_254(elements) USS_HOLDS((elements) + 0LL >= 0 && (elements) + 0LL <= 254)
#define USS_ACCESS_IS_0_OR_1(access) USS_HOLDS((access) + 0LL == 0 || (access) + 0LL == 1)
#define USS_LIMIT_FITS_ITS_KIND(limit, least, most) USS_HOLDS((limit) + 0LL >= (least) && (limit) + 0LL <= (most))
#define USS_MINIMUM_AT_MOST_MAXIMUM(minimum, maximum) USS_HOLDS((minimum) + 0LL <= (maximum) + 0LL)

/* ---- the receiver
 *
 * A receiver is fed as the UART delivers, bytes and pauses, and hands out telegrams. A pause arms it, from any state. Only 02
 * directly after a pause opens a telegram; any other first byte, or an LGE outside 3 to 254, disarms it. At LGE + 2 bytes the
 * telegram is handed out, once, and the receiver is disarmed. A pause inside a telegram drops it and arms again. Disarmed, bytes
 * are taken and ignored. How the items are cut into calls does not show. As long as receiver and page are as the last call left
 * them, what is handed out is never refused with 10 to 13; its BCC, its address and the rest are for uss_slave or uss_read_reply to
 * test. A receiver has no numbers and refuses nothing.
 *
 * A byte between a telegram and the next pause says that what was handed out may not be what was sent; docs/SERIAL.md, Pauses, has
 * why a host waits for that pause before it acts.
 *
 * receiver  what the last call gave back; {0} at the start.
 * page      where the telegram is put together: while one is begun (state over 1) the same bytes at each call, which nobody else
 *           writes; else any page will do. USS_BUFFER bytes take every telegram; a shorter page those that fit, and an LGE whose
 *           telegram does not fit disarms. A state that says more bytes than the page has is disarmed.
 */

/* Takes items until a telegram is whole or none is left; then feed it the items that it did not take. With a telegram `length` is its
 * byte count, and it stands at the start of `page`. Writes each byte that opens a telegram or goes on with it to its place in
 * `page` when it is taken, and nothing else.
 *
 * items     bytes and pauses as they came: under USS_PAUSE a byte, else a pause.
 */
uss_received uss_receive(uss_receiver receiver, const uint16_t *items, size_t item_count, uint8_t *page, size_t page_len);

/* Takes bytes: uss_receive of the same bytes as items, for an interrupt, or a driver that hands over bytes alone.
 *
 * bytes     bytes as they came, with no pause between them.
 */
uss_received uss_receive_bytes(uss_receiver receiver, const uint8_t *bytes, size_t byte_count, uint8_t *page, size_t page_len);

/* Takes one pause: uss_receive of one pause, for a timer. It arms, whatever `receiver` is; no page is needed. */
uss_receiver uss_pause(uss_receiver receiver);

/* ---- the slave
 *
 * table     records of 12 bytes, numbers rising. Bytes 0 to 3, most significant bit first: number 15 bits, double 1, signed 1,
 *           writable 1, elements 8 (0 = no array), spare 6 (zero). Bytes 4 to 7 minimum, 8 to 11 maximum, high byte first.
 *           A word's limits and values sit in the low 16 bits, upper half zero; a signed word's -100 is 0x0000FF9C.
 *           docs/PROTOCOL.md, Parameter table, has a picture and every rule.
 * values    one number for each element (one where there is no array), in record order.
 */

/* Serves one received page: checks it, runs its task on the values, takes its process words and writes the reply.
 *
 * setup     this drive's node, and the words of its two areas.
 * control   the control words as they stand; keep what the answer gives back, whatever its number is.
 * status    what the reply carries as process words.
 * received  the telegram that a receiver handed out; or any bytes, as they came.
 * reply     the buffer for the reply, USS_BUFFER bytes or more.
 *
 * Numbers in test order: 20 21 22 23, 10 11 12 13 14 15, 16 17 18, then 0, 1 or 2. All of 20 to 23 are tested at each call.
 *
 * Answer 0 writes the reply's bytes at the start of `reply` and leaves the rest; a change writes one place of `values`. A
 * reply may carry a parameter error: it is a reply like any other. Answer 1 writes the received bytes to `reply`. Answer 2
 * and every refusal write nothing.
 */
uss_answer uss_slave(uss_setup setup, const uint8_t *table, size_t table_len, uint32_t *values, size_t value_count,
                     uss_words control, uss_words status, const uint8_t *received, size_t received_len,
                     uint8_t *reply, size_t reply_len);

/* Serves one received page as uss_slave does, with a list of first places. A parameter's place is looked up there and not added up.
 * With a right list the answer is exactly that of uss_slave: number, length, control words, the reply's bytes, values. The parameters
 * that are not named here are those of uss_slave.
 *
 * places    one number for each record, its first place: 0 for the first; for another the elements of all records before it, added
 *           up, where a record without array counts as 1. uss_fill_places writes it. The list stands with its table: fill it once, and
 *           lend it at each call. It is tested at each call: a list that was written over is 25, and no wrong value is read or changed. An
 *           empty list goes with an empty table; for a table with records it is 25: a host without a list calls uss_slave.
 *
 * Numbers in test order: 20 21 22 25 23, 10 11 12 13 14 15, 16 17 18, then 0, 1 or 2. The first five are tested at each call.
 *
 * It writes what uss_slave writes. The list is only read. It pays where records are arrays; where none is, uss_slave is faster.
 */
uss_answer uss_slave_listed(uss_setup setup, const uint8_t *table, size_t table_len, uint32_t *values, size_t value_count,
                            const uint16_t *places, size_t place_count, uss_words control, uss_words status,
                            const uint8_t *received, size_t received_len, uint8_t *reply, size_t reply_len);

/* Says which rule a table and its values break first, and where. The rules are those of docs/TABLES.md. For power-up and for tests.
 *
 * Numbers in test order: 21, 22, then 0.
 *
 * They are those that uss_slave finds of table and values: 21 goes with rules 1 to 9, 22 with 10 and 11. It writes nothing.
 */
uss_table_check uss_check_table(const uint8_t *table, size_t table_len, const uint32_t *values, size_t value_count);

/* Fills the list of first places that uss_slave_listed takes. Once for each table: at power-up, and where the table is another one.
 *
 * places    the room for the list, one number for each record. What stands there before does not matter.
 *
 * Numbers in test order: 21, 25, then 0. Here 25 is that of the count alone: place_count is not the number of records.
 *
 * 0 writes every place; 21 and 25 write nothing.
 */
uint32_t uss_fill_places(const uint8_t *table, size_t table_len, uint16_t *places, size_t place_count);

/* Opens a view of a table, for a screen that goes from record to record. It tests the whole table once, rules 1 to 9 of docs/TABLES.md;
 * then uss_view_show shows the record that the view stands at, the first to begin with, and uss_view_step goes to the next. Lend the
 * same table to each of them.
 *
 * Numbers in test order: 21, then 0. A view with 21 shows nothing. It writes nothing.
 */
uss_view uss_view_open(const uint8_t *table, size_t table_len);

/* Shows the fields of the record that a view stands at. Behind the last record there is none, nor with a number that is not 0: then all
 * is 0. It is never refused, and it writes nothing.
 *
 * view      what uss_view_open or uss_view_step gave; or any two numbers: nothing outside the table is read. Only uss_view_open tests
 *           the table's rules: a view that was made up, number 0 and a record's place, shows that record's fields as they stand.
 */
uss_record uss_view_show(const uint8_t *table, size_t table_len, uss_view view);

/* Steps to the next record. The view that comes back stands one further; a view that shows nothing comes back as it is. It is never
 * refused, and it writes nothing.
 *
 * view      as in uss_view_show.
 */
uss_view uss_view_step(const uint8_t *table, size_t table_len, uss_view view);

/* ---- the master
 *
 * setup      node of the drive that is spoken to, and the words of the two areas, as the drive has them.
 * task       what is asked: one of enum uss_task.
 * parameter  the parameter's number.
 * index      the element of an array, counted from 0, in every read and change, tasks 1, 2, 3, 13 and 14 too; without array 0 and 1
 *            both name its one value. Task 9 ignores it, and task 0 has 0.
 * value      the new value of a change, as bits: a signed word's -100 is 0xFF9C. 0 where nothing is changed.
 * process    the process words; those past PZD are 0.
 * out        the buffer for the telegram, USS_BUFFER bytes or more.
 *
 * Numbers in test order: 30 31 32, then 0 with the telegram's bytes at the start of `out`, the rest left as it is.
 */

/* Builds the telegram of a task. Can be asked: task 0 with parameter, index and value 0; or, with an area, task 1-3, 6-9, 11-14,
 * parameter at most 31999, index at most 254, value 0 for tasks 1, 6, 9 and at most 65535 for word changes, no double change in
 * three words. Process words past PZD are 0. Else 31. */
uss_built uss_build_task(uss_setup setup, uint8_t task, uint16_t parameter, uint8_t index, uint32_t value,
                         uss_words process, uint8_t *out, size_t out_len);

/* Builds a mirror telegram. The node answers with the same bytes: compare them; uss_read_reply does not take them.
 *
 * net        the net bytes, 1 to 252; else 31.
 */
uss_built uss_build_mirror(uss_setup setup, const uint8_t *net, size_t net_len, uint8_t *out, size_t out_len);

/* Builds a broadcast to all nodes. Its address byte is 0x20, whatever the set-up's node is; no drive answers. 31 where it is void:
 * PKW or PZD 0, the first word not selected, no bit 10 in mask1 or process.w1, a selector bit for another word or one not
 * configured; also where a process word past PZD is not 0.
 *
 * selector   bit 1 selects the first process word, bit 2 the second.
 * mask1      which bits of the first word are taken; the drives keep the others.
 * mask2      the same of the second word.
 */
uss_built uss_build_broadcast(uss_setup setup, uint16_t selector, uint16_t mask1, uint16_t mask2,
                              uss_words process, uint8_t *out, size_t out_len);

/* Reads the reply to a task. Give set-up, task, parameter, index, value and process words as the task was built. Writes nothing.
 *
 * received   the telegram that a receiver handed out; or any bytes that came from the line.
 *
 * Numbers in test order: 30 31, 10 11 12 13 14 15, 16 17, 33, then 0. A value is returned without its sign.
 */
uss_reply uss_read_reply(uss_setup setup, uint8_t task, uint16_t parameter, uint8_t index, uint32_t value,
                         uss_words process, const uint8_t *received, size_t received_len);

/* ---- figures for a panel
 *
 * 4000 hexadecimal, which is 16384, stands for the drive's reference, and the word is signed: C000 is the reference backwards. A drive
 * that scales its words otherwise (MICROMASTER: P2009 = 1) is not for these calls. Hertz and percent are exact in a double, nothing is
 * rounded: the figure times 16384 is the word times reference or 100. Word 0 is positive zero. Where a chip computes no doubles by
 * itself, these two ask for its compiler's soft-float functions (docs/CHIPS.md, Doubles).
 *
 * word       the process word as it came, mostly the second: set point or actual value, as in the process.w2 of a uss_reply.
 */

/* Shows a word as hertz: word * reference / 16384. 4000 hexadecimal at a reference of 50 is 50.0.
 *
 * reference  the hertz that 4000 hexadecimal stands for, 1 to 650 whole hertz.
 *
 * Numbers in test order: 50, then 0. With 50 there is no figure.
 */
uss_figure uss_show_hertz(uint16_t word, uint32_t reference);

/* Shows a word as percent of the reference: word * 100 / 16384. 4000 hexadecimal is 100.0. It is never refused. */
uss_figure uss_show_percent(uint16_t word);

/* Shows a word as it came, without a sign. It is never refused. */
uss_figure uss_show_raw(uint16_t word);

/* ---- bytes */

/* Lists received bytes: writes a text that describes the first 300 of them to the start of `out`, with no 0 byte behind it, and
 * returns its length, at most 64. Where `out` is too short it writes nothing and returns 0.
 *
 * received  the bytes as they came.
 * out       the buffer for the text; USS_LISTING bytes are always enough.
 */
uint32_t uss_list(const uint8_t *received, size_t received_len, uint8_t *out, size_t out_len);

/* The XOR of all bytes; 0 of none. BCC is that of all bytes before it, the 02 included. */
uint8_t uss_bcc(const uint8_t *bytes, size_t len);

#ifdef __cplusplus
}
#endif

#endif
