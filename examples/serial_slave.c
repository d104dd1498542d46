/* A drive on a serial line under Linux: the host of slave_host.c with its line.
 *
 *     serial_slave DEVICE [BAUD [SLACK]]
 *
 * Prints a line for each telegram that came, and ends when the line is gone. docs/SERIAL.md explains the times.
 */
#include "serial_line.h"

#include "uss.h"
#include "uss_text.h"

/* The parameter table, numbers rising: number, access, elements (0 = no array), minimum, maximum. docs/TABLES.md says more. */
static const uint8_t table[] = {
    USS_WORD(700, USS_WRITABLE, 0, 0, 99),
    USS_WORD(1082, USS_WRITABLE, 2, 0, 65000)
};
/* One number for each element, in the order of the records: 700, 1082.0, 1082.1. */
static uint32_t values[] = {5, 5000, 6000};

/* Node 3, four parameter words, two process words. */
static const uss_setup setup = {3, 4, 2};

int main(int count, char **arguments)
{
    static uint8_t reply[USS_BUFFER];
    serial_line line = line_of(count, arguments, 3);
    uss_words control = {0, 0, 0, 0};

    printf("on the line\n");
    fflush(stdout);
    for (;;) {
        /* What the drive says of itself: status word and actual value. */
        uss_words status = {0x0331, 0x2000, 0, 0};
        uss_answer a;
        /* A pause was seen behind the telegram, so the reply starts no earlier than a pause after its task. */
        size_t n = line_receive(&line, -1);
        if (line.gone)
            return 0;
        a = uss_slave(setup, table, sizeof table, values, sizeof values / sizeof values[0], control, status, line.page, n,
                      reply, sizeof reply);
        control = a.control;
        /* Refusals and broadcasts have length 0: nothing is sent. */
        if (a.length > 0)
            line_send(&line, reply, a.length);
        printf("%u bytes, answer %u, %s; control word %04X, set point %04X, parameter 700 is %u\n", (unsigned)n, (unsigned)a.number,
               uss_number_text(a.number), (unsigned)control.w1, (unsigned)control.w2, (unsigned)values[0]);
        fflush(stdout);
    }
}
