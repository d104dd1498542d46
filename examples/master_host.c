/* The smallest master host: asks the drive at node 3 for parameter 1082 and reads what it answers.
 *
 * Replace `exchange` by your serial port: send the telegram, and note what comes, bytes and pauses, until the time for a reply is
 * over.
 */
#include "uss.h"
#include "uss_text.h"

#include <stdio.h>
#include <string.h>

/* As the drive is set up: node 3, four parameter words, two process words. */
static const uss_setup setup = {3, 4, 2};
/* The hertz that 4000 hexadecimal stands for in it. */
#define REFERENCE 50

/* ---- the line; here a drive that knows one telegram, and a byte of noise before it */

static size_t exchange(const uint8_t *telegram, size_t n, uint16_t *items, size_t room)
{
    static const uint16_t known[] = {0xFF, USS_PAUSE,
                                     0x02, 0x0E, 0x03, 0x14, 0x3A, 0, 0, 0, 0, 0x13, 0x88, 0x03, 0x31, 0x20, 0x00, 0xA8, USS_PAUSE};
    size_t i;
    printf("sent ");
    for (i = 0; i < n; i++)
        printf(" %02X", telegram[i]);
    printf("\n");
    if (room < sizeof known / sizeof known[0])
        return 0;
    memcpy(items, known, sizeof known);
    return sizeof known / sizeof known[0];
}

/* Asks for a parameter's value. Returns 0 and the value, or says why there is none. */
static int ask(uint16_t parameter, uint32_t *value)
{
    static uint8_t telegram[USS_BUFFER], page[USS_BUFFER];
    static uint16_t items[300];
    /* The control word with bit 10 set, so that the drive takes it, and the main set point. */
    uss_words process = {0x047F, 0x2000, 0, 0};
    uss_built b = uss_build_task(setup, USS_READ, parameter, 0, 0, process, telegram, sizeof telegram);
    uss_receiver receiver = {0};
    uss_received heard;
    uss_reply r;
    uss_figure hertz;
    size_t n;

    if (b.number != USS_DONE) {
        printf("not built: %u, %s\n", (unsigned)b.number, uss_number_text(b.number));
        return 1;
    }
    n = exchange(telegram, b.length, items, sizeof items / sizeof items[0]);
    /* The first telegram among the items; it stands in `page`, and the item behind it is to be a pause. */
    heard = uss_receive(receiver, items, n, page, sizeof page);
    if (heard.length == 0 || heard.taken == n || items[heard.taken] < USS_PAUSE) {
        printf("no reply\n");
        return 1;
    }
    r = uss_read_reply(setup, USS_READ, parameter, 0, 0, process, page, heard.length);
    if (r.number != USS_DONE) {
        printf("not read: %u, %s\n", (unsigned)r.number, uss_number_text(r.number));
        return 1;
    }
    hertz = uss_show_hertz(r.process.w2, REFERENCE);
    if (hertz.number != USS_DONE) {
        printf("not shown: %u, %s\n", (unsigned)hertz.number, uss_number_text(hertz.number));
        return 1;
    }
    printf("status word %04X, actual value %04X: %.1f Hz, %.1f %%\n", (unsigned)r.process.w1, (unsigned)r.process.w2, hertz.value,
           uss_show_percent(r.process.w2).value);
    if (r.id == USS_ID_ERROR) {
        printf("the drive says error %u, %s\n", (unsigned)r.value, uss_error_text(r.value));
        return 1;
    }
    *value = r.value;
    return 0;
}

int main(void)
{
    uint32_t value;
    if (ask(1082, &value) == 0)
        printf("parameter 1082 is %u\n", (unsigned)value);
    /* The known reply is that of 1082: it is not taken for another parameter's. */
    if (ask(1083, &value) == 0)
        printf("parameter 1083 is %u\n", (unsigned)value);
    return 0;
}
