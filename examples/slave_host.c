/* The smallest slave host: a drive with two parameters that answers what comes in on the line.
 *
 * Replace `receive` and `send` by your serial port, `table` by your parameters, and act on `control` and `values` after each
 * call. The library keeps nothing: the state of the drive is what stands in these variables.
 */
#include "uss.h"
#include "uss_text.h"

#include <stdio.h>

/* The parameter table, numbers rising: number, access, elements (0 = no array), minimum, maximum. docs/TABLES.md says more. */
static const uint8_t table[] = {
    USS_WORD(700, USS_WRITABLE, 0, 0, 99),
    USS_WORD(1082, USS_WRITABLE, 2, 0, 65000)
};
/* One number for each element, in the order of the records: 700, 1082.0, 1082.1. */
static uint32_t values[] = {5, 5000, 6000};

/* Node 3, four parameter words, two process words. */
static const uss_setup setup = {3, 4, 2};

/* ---- the line; here what came on it in a while, bytes and pauses */

static const uint16_t line[] = {
    USS_PAUSE,
    /* read 1082, control word 047F, main set point 2000 */
    0x02, 0x0E, 0x03, 0x14, 0x3A, 0, 0, 0, 0, 0, 0, 0x04, 0x7F, 0x20, 0x00, 0x7A, USS_PAUSE,
    /* change 700 to 7 */
    0x02, 0x0E, 0x03, 0x22, 0xBC, 0, 0, 0, 0, 0, 7, 0x04, 0x7F, 0x20, 0x00, 0xCD, USS_PAUSE,
    /* the first with an LGE that says 256 bytes: no telegram, and the pause ends it */
    0x02, 0xFE, 0x03, 0x14, 0x3A, 0, 0, 0, 0, 0, 0, 0x04, 0x7F, 0x20, 0x00, 0x7A, USS_PAUSE,
    /* the first with its last bit turned on the way */
    0x02, 0x0E, 0x03, 0x14, 0x3A, 0, 0, 0, 0, 0, 0, 0x04, 0x7F, 0x20, 0x00, 0x7B, USS_PAUSE
};

/* The next bytes, as many as are there; a count of 0 where none came for two characters: a pause. Returns 0 when the line is gone. */
static int receive(uint8_t *bytes, size_t room, size_t *count)
{
    static size_t next = 0;
    size_t end = sizeof line / sizeof line[0];
    *count = 0;
    if (next == end)
        return 0;
    if (line[next] == USS_PAUSE)
        next++;
    else
        while (*count < room && next < end && line[next] < USS_PAUSE)
            bytes[(*count)++] = (uint8_t)line[next++];
    return 1;
}

static void send(const uint8_t *bytes, size_t n)
{
    size_t i;
    printf("reply");
    for (i = 0; i < n; i++)
        printf(" %02X", bytes[i]);
    printf("\n");
}

/* Does what the telegram asks, and answers it. */
static void serve(const uint8_t *page, size_t length)
{
    static uint8_t reply[USS_BUFFER];
    static uss_words control = {0, 0, 0, 0};
    /* What the drive says of itself: status word and actual value. */
    uss_words status = {0x0331, 0x2000, 0, 0};
    uss_answer a = uss_slave(setup, table, sizeof table, values, sizeof values / sizeof values[0], control, status, page, length,
                             reply, sizeof reply);
    control = a.control;
    /* Refusals and broadcasts have length 0: nothing is sent. */
    if (a.length > 0)
        send(reply, a.length);
    printf("answer %u, %s; control word %04X, set point %04X, parameter 700 is %u\n", (unsigned)a.number, uss_number_text(a.number),
           (unsigned)control.w1, (unsigned)control.w2, (unsigned)values[0]);
}

int main(void)
{
    static uint8_t page[USS_BUFFER];
    uint8_t bytes[5];
    uss_receiver receiver = {0};
    size_t count, i;
    size_t length = 0; /* of the telegram in `page`, where the last byte was its last */

    while (receive(bytes, sizeof bytes, &count)) {
        uss_received r;
        /* Bytes in. Where a telegram ends among them, the rest is fed too and length is 0: one counts with a pause behind it. */
        for (i = 0; i < count; i += (size_t)r.taken) {
            r = uss_receive_bytes(receiver, bytes + i, count - i, page, sizeof page);
            receiver = r.receiver;
            length = r.length;
        }
        /* Pause in, page out. So the reply starts no earlier than a pause after its task. */
        if (count == 0) {
            receiver = uss_pause(receiver);
            if (length > 0)
                serve(page, length);
            length = 0;
        }
    }
    return 0;
}
