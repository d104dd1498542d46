/* A master on a serial line under Linux, for the drive of serial_slave.c: mirrors, reads, changes and broadcasts.
 *
 *     serial_master DEVICE [BAUD [SLACK]]
 *
 * Each task is tried up to three times, and no wait is without end. Ends with 0 where all went well, with 1 where a task has no reply
 * or an error as its reply. docs/SERIAL.md explains the times.
 */
#include "serial_line.h"

#include "uss.h"
#include "uss_text.h"

#define TRIES 3

/* As the drive is set up: node 3, four parameter words, two process words. */
static const uss_setup setup = {3, 4, 2};
/* The control word with bit 10 set, so that the drive takes it, and the main set point. */
static const uss_words process = {0x047F, 0x2000, 0, 0};
static int failed = 0;

/* Sends the telegram after a pause, and waits for one that comes back, which then stands in the line's page; returns its length. What
 * comes before it was sent, as a late reply to an earlier task, is dropped. */
static size_t exchange(serial_line *l, const uint8_t *telegram, size_t n)
{
    if (!line_quiet(l))
        return 0;
    line_send(l, telegram, n);
    /* the telegram itself, the drive's delay, and the first character of its reply */
    return line_receive(l, line_time(l, (long)n + 1) + LINE_REPLY_DELAY + l->slack);
}

/* Why nothing came. */
static const char *nothing(const serial_line *l)
{
    return l->gone ? "the line is gone" : l->quiet ? "no reply" : "the line is never quiet";
}

/* A mirror telegram comes back byte for byte: the way there and back is sound. */
static void mirror(serial_line *l, const uint8_t *net, size_t net_len)
{
    static uint8_t telegram[USS_BUFFER];
    uss_built b = uss_build_mirror(setup, net, net_len, telegram, sizeof telegram);
    size_t n = 0;
    int i, same = 0;

    for (i = 0; i < TRIES && b.number == USS_DONE && !same; i++) {
        n = exchange(l, telegram, b.length);
        same = n == b.length && memcmp(telegram, l->page, n) == 0;
    }
    printf("mirror: %s\n", same ? "the same bytes" : n > 0 ? "not the same bytes" : nothing(l));
    failed |= !same;
}

/* Asks until the drive's reply is read, and says what it is. */
static void ask(serial_line *l, const char *what, uint8_t task, uint16_t parameter, uint8_t index, uint32_t value)
{
    static uint8_t telegram[USS_BUFFER];
    uss_built b = uss_build_task(setup, task, parameter, index, value, process, telegram, sizeof telegram);
    uss_reply r = {USS_NOT_THE_REPLY, 0, 0, {0, 0, 0, 0}};
    size_t n = 0;
    int i;

    for (i = 0; i < TRIES && b.number == USS_DONE && r.number != USS_DONE; i++) {
        n = exchange(l, telegram, b.length);
        r = uss_read_reply(setup, task, parameter, index, value, process, l->page, n);
    }
    printf("%s: ", what);
    if (b.number != USS_DONE)
        printf("not built, %u: %s\n", (unsigned)b.number, uss_number_text(b.number));
    else if (n == 0)
        printf("%s\n", nothing(l));
    else if (r.number != USS_DONE)
        printf("not read, %u: %s\n", (unsigned)r.number, uss_number_text(r.number));
    else if (r.id == USS_ID_ERROR)
        printf("error %u, %s\n", (unsigned)r.value, uss_error_text(r.value));
    else if (r.id == USS_ID_NO_RIGHT)
        printf("no right to change\n");
    else
        printf("%u; status word %04X, actual value %04X\n", (unsigned)r.value, (unsigned)r.process.w1, (unsigned)r.process.w2);
    failed |= r.number != USS_DONE || r.id == USS_ID_ERROR || r.id == USS_ID_NO_RIGHT;
}

/* Sets bit 0 of every drive's control word to that of `word`. Nobody answers, so nothing tells whether it came through: it is sent
 * twice, and twice leaves what once leaves. The time for a reply passes, so that the telegram has left before the next. */
static void broadcast(serial_line *l, uint16_t word)
{
    static uint8_t telegram[USS_BUFFER];
    uss_words words = {0, 0, 0, 0};
    uss_built b;
    int i;

    words.w1 = word;
    b = uss_build_broadcast(setup, 0x0002, 0x0401, 0, words, telegram, sizeof telegram);
    for (i = 0; i < 2 && b.number == USS_DONE; i++)
        exchange(l, telegram, b.length);
    printf("broadcast: %s\n", b.number != USS_DONE ? uss_number_text(b.number) : l->quiet && !l->gone ? "sent" : nothing(l));
    failed |= b.number != USS_DONE || !l->quiet || l->gone;
}

int main(int count, char **arguments)
{
    static const uint8_t net[] = {'h', 'e', 'l', 'l', 'o'};
    serial_line line = line_of(count, arguments, 20);

    mirror(&line, net, sizeof net);
    ask(&line, "parameter 1082, element 1", USS_READ_ELEMENT, 1082, 1, 0);
    ask(&line, "parameter 700 changed to 7", USS_CHANGE_WORD, 700, 0, 7);
    ask(&line, "parameter 700", USS_READ, 700, 0, 0);
    broadcast(&line, 0x0400);
    return failed;
}
