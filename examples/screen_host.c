/* A commissioning screen: shows the parameters of a drive record by record, and serves a task with a list of first places.
 *
 * Replace `printf` by your display and `table` by the drive's own. The screen looks at the table where it stands: nothing is copied,
 * and a table that breaks a rule is not shown.
 */
#include "uss.h"
#include "uss_text.h"

#include <stdio.h>

#define RECORDS (sizeof table / USS_RECORD)

static const uint8_t table[] = {
    USS_WORD(700, USS_WRITABLE, 0, 0, 99),
    USS_SIGNED_WORD(701, USS_READ_ONLY, 3, -100, 100),
    USS_DOUBLE(1082, USS_WRITABLE, 2, 0, 4000000000),
    USS_SIGNED_DOUBLE(2000, USS_WRITABLE, 0, -70000, 70000)
};
/* 700, 701.0 to 701.2, 1082.0, 1082.1, 2000 */
static uint32_t values[] = {5, USS_WORD_VALUE(-7), 0, 7, 5000, 6000, 1};
/* The first place of each record among the values: filled once, and lent at each call. */
static uint16_t places[RECORDS];

/* A limit as a number: a signed word has 16 bits, a signed double 32. */
static long long amount(uss_record r, uint32_t bits)
{
    long long half = r.is_double ? 2147483648LL : 32768LL;
    return r.is_signed && bits >= half ? bits - 2 * half : bits;
}

static void show_table(const uint8_t *bytes, size_t len)
{
    static const char *const kinds[4] = {"word", "signed word", "double", "signed double"};
    uss_view view = uss_view_open(bytes, len);
    uss_record r;

    printf("table of %u bytes: %u, %s\n", (unsigned)len, (unsigned)view.number, uss_number_text(view.number));
    for (; (r = uss_view_show(bytes, len, view)).there; view = uss_view_step(bytes, len, view)) {
        const char *kind = kinds[2 * r.is_double + r.is_signed];
        printf("%5u  %-13s  %-9s  ", (unsigned)r.parameter, kind, r.writable ? "writable" : "read only");
        if (r.elements > 0)
            printf("%3u elements  ", (unsigned)r.elements);
        else
            printf("    no array  ");
        printf("%lld to %lld\n", amount(r, r.minimum), amount(r, r.maximum));
    }
}

/* Asks the drive for parameter 1082, element 1, with the list as it stands. */
static void serve(void)
{
    static const uss_setup setup = {3, 4, 2};
    uss_words control = {0x047F, 0x2000, 0, 0}, status = {0x0331, 0x2000, 0, 0};
    uint8_t telegram[USS_BUFFER], reply[USS_BUFFER];
    uss_built b = uss_build_task(setup, USS_READ_ELEMENT, 1082, 1, 0, control, telegram, sizeof telegram);
    uss_answer a = uss_slave_listed(setup, table, sizeof table, values, sizeof values / sizeof values[0], places, RECORDS, control,
                                    status, telegram, b.length, reply, sizeof reply);
    uss_reply r = uss_read_reply(setup, USS_READ_ELEMENT, 1082, 1, 0, control, reply, a.length);

    printf("answer %u, %s", (unsigned)a.number, uss_number_text(a.number));
    if (a.number == USS_REPLIED && r.number == USS_DONE && r.id != USS_ID_ERROR)
        printf(": parameter 1082, element 1 is %u", (unsigned)r.value);
    printf("\n");
}

int main(void)
{
    uint32_t number;

    show_table(table, sizeof table - 1); /* the last byte is missing */
    show_table(table, sizeof table);

    number = uss_fill_places(table, sizeof table, places, RECORDS);
    printf("list: %u, %s\n", (unsigned)number, uss_number_text(number));
    serve();
    places[2] = 0; /* somebody wrote over the list: it is seen, and no other parameter is read */
    serve();
    return 0;
}
