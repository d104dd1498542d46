/* USS slave and master: a short English text for each answer number, parameter error and rule of a table.
 *
 * Header only, for C99 and C++11. What is not called leaves no code and no text in the program; the archive has none of it. A text
 * is constant and ends with a 0 byte, has no line end, and starts in small letters, to stand after the number: "14: BCC wrong".
 * Causes and remedies are in README.md.
 */
#ifndef USS_TEXT_H
#define USS_TEXT_H

#include "uss.h"

/* The text of an answer number (enum uss_number); "no answer number" for any other. 0 is one text for all calls: the slave has
 * replied, the telegram is built, the reply is read, a figure is shown, the list is filled, the view is opened. */
static inline const char *uss_number_text(uint32_t number)
{
    switch (number) {
    case USS_REPLIED: return "done";
    case USS_MIRRORED: return "mirrored";
    case USS_TAKEN: return "broadcast taken, no reply";
    case USS_SHORT: return "fewer than 5 bytes";
    case USS_START: return "first byte not 02";
    case USS_LGE: return "LGE not 3 to 254";
    case USS_COUNT: return "byte count not LGE + 2";
    case USS_CHECK: return "BCC wrong";
    case USS_ADDRESS: return "address byte not allowed";
    case USS_OTHER_NODE: return "another node's telegram";
    case USS_OTHER_LENGTH: return "net bytes not those of the set-up";
    case USS_VOID_BROADCAST: return "void broadcast";
    case USS_BAD_SETUP: return "set-up not allowed in the slave";
    case USS_BAD_TABLE: return "the table breaks a rule";
    case USS_BAD_VALUES: return "value count wrong, or a value outside its limits";
    case USS_SHORT_REPLY: return "reply buffer under 256 bytes";
    case USS_BAD_PLACES: return "list of places not that of the table";
    case USS_UNFIT_SETUP: return "set-up not allowed in the master";
    case USS_NOT_ASKABLE: return "no telegram says this request";
    case USS_SHORT_OUT: return "telegram buffer under 256 bytes";
    case USS_NOT_THE_REPLY: return "not the reply to this task";
    case USS_BAD_REFERENCE: return "reference not 1 to 650";
    default: return "no answer number";
    }
}

/* The text of a parameter error (enum uss_error), the value of a reply with ID 7; "other error" for any other: a drive of another
 * make may send numbers of its own. */
static inline const char *uss_error_text(uint32_t error)
{
    switch (error) {
    case USS_NO_PARAMETER: return "no such parameter";
    case USS_NOT_WRITABLE: return "not writable";
    case USS_OUTSIDE_LIMITS: return "value outside its limits";
    case USS_NO_ELEMENT: return "no such element";
    case USS_NO_ARRAY: return "not an array, and index over 1";
    case USS_OTHER_WIDTH: return "word task on a double, or the reverse";
    case USS_NEEDS_FOUR: return "double in an area of three words";
    case USS_NO_SUCH_TASK: return "no such task";
    default: return "other error";
    }
}

/* The text of a rule of a table (enum uss_rule), as uss_check_table gives it; "no rule" for any other. */
static inline const char *uss_rule_text(uint32_t rule)
{
    switch (rule) {
    case USS_RULE_KEPT: return "none is broken";
    case USS_RULE_PART_RECORD: return "not whole records of 12 bytes";
    case USS_RULE_MANY_RECORDS: return "more than 512 records";
    case USS_RULE_NUMBER_ORDER: return "number not over that of the record before it";
    case USS_RULE_HIGH_NUMBER: return "number over 31999";
    case USS_RULE_MANY_ELEMENTS: return "over 254 elements";
    case USS_RULE_SPARE_BIT: return "a spare bit is set";
    case USS_RULE_UPPER_HALF: return "a word's limit has an upper half";
    case USS_RULE_LIMIT_ORDER: return "minimum over maximum";
    case USS_RULE_MANY_PLACES: return "over 4096 places with this record";
    case USS_RULE_VALUE_COUNT: return "not one value for each place";
    case USS_RULE_OUTSIDE_LIMITS: return "a value outside its record's limits";
    default: return "no rule";
    }
}

#endif
