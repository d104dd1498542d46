/* The table and the values of docs/TABLES.md, which tests/run.sh takes from the page: they pass, at power-up as the page has it too.
 * Prints the bytes of the second record as the page shows them. */
#include "uss.h"

#include <stdio.h>

#include "page.h"

int main(void)
{
    static uint8_t reply[USS_BUFFER];
    const uss_setup setup = {3, 4, 2};
    const uss_words none = {0, 0, 0, 0};
    const size_t count = sizeof values / sizeof values[0];
    uss_answer a = uss_slave(setup, table, sizeof table, values, count, none, none, NULL, 0, reply, sizeof reply);
    uss_table_check c = uss_check_table(table, sizeof table, values, count);
    int i;
    for (i = 0; i < 12; i++)
        printf("%s%02X", i == 0 ? "    " : i % 4 == 0 ? "  " : " ", (unsigned)table[USS_RECORD + i]);
    printf("\n");
    return a.number != USS_SHORT || c.number != 0;
}
