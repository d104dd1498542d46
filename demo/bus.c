/* A small bus on a screen: a master, a fan drive at node 3 and a pump drive at node 5, and noise on the line. Every telegram
 * goes through the library, to each by its receiver, byte by byte with a pause behind; each step shows what was sent, what a
 * listing says of it, and what the drives did. */
#include "uss.h"
#include "uss_text.h"

#include <stdio.h>
#include <string.h>

/* What hears the line. */
typedef struct {
    uss_receiver receiver;
    uint8_t page[USS_BUFFER];
} ear;

typedef struct {
    const char *name;
    uss_setup setup;
    uint32_t values[4];
    uss_words control;
    ear ear;
} drive;

/* Both drives have the same parameters: 700 source of commands, 0 to 6, read only; 1080 lowest speed, two elements of 0 to
 * 50; 2000 running hours, a double, read only. */
static const uint8_t table[] = {
    USS_WORD(700, USS_READ_ONLY, 0, 0, 6),
    USS_WORD(1080, USS_WRITABLE, 2, 0, 50),
    USS_DOUBLE(2000, USS_READ_ONLY, 0, 0, 4294967295)
};

static drive drives[2] = {
    {"fan ", {3, 4, 2}, {5, 10, 12, 70000}, {0x047E, 0x1111, 0, 0}, {{0}, {0}}},
    {"pump", {5, 4, 2}, {5, 20, 22, 140000}, {0x047E, 0x2222, 0, 0}, {{0}, {0}}}
};

static const uss_setup fan = {3, 4, 2};
static ear master;
static int step_number = 0;

/* ---- showing */

static void show_step(const char *what)
{
    printf("\n%d. %s\n", ++step_number, what);
}

static void show_telegram(const char *who, const uint8_t *t, size_t n)
{
    uint8_t text[USS_LISTING];
    uint32_t length = uss_list(t, n, text, sizeof text);
    size_t i, shown = n < 16 ? n : 16;
    printf("   %s", who);
    for (i = 0; i < shown; i++)
        printf(" %02X", t[i]);
    printf(shown < n ? " ..\n" : "\n");
    /* the listing without its first line, each line set in */
    for (i = 19; i < length; i++) {
        if (text[i - 1] == '\n')
            printf("        | ");
        putchar(text[i]);
    }
}

static void show_drive(const drive *d, const drive *before)
{
    int same = memcmp(d->values, before->values, sizeof d->values) == 0 && d->control.w1 == before->control.w1
               && d->control.w2 == before->control.w2;
    printf("   %s  control %04X, set point %04X, values %u | %u %u | %u%s\n", d->name, (unsigned)d->control.w1,
           (unsigned)d->control.w2, (unsigned)d->values[0], (unsigned)d->values[1], (unsigned)d->values[2],
           (unsigned)d->values[3], same ? "   (unchanged)" : "");
}

/* ---- the line: every drive hears every telegram; the reply of the one that answers comes back */

/* A byte as an interrupt has it. Returns the length of the telegram that it ends, which stands in the page then, or 0. */
static uint32_t hear_byte(ear *e, uint8_t byte)
{
    uss_received r = uss_receive_bytes(e->receiver, &byte, 1, e->page, sizeof e->page);
    e->receiver = r.receiver;
    return r.length;
}

/* Bytes with a pause behind them. Returns the length of the telegram that ends where the pause begins, or 0. */
static uint32_t hear(ear *e, const uint8_t *bytes, size_t n)
{
    uint32_t length = 0;
    size_t i;
    for (i = 0; i < n; i++)
        length = hear_byte(e, bytes[i]);
    e->receiver = uss_pause(e->receiver);
    return length;
}

static size_t on_the_line(const uint8_t *t, size_t n, uint8_t *back)
{
    uint8_t reply[USS_BUFFER];
    size_t length = 0, k;
    show_telegram("line ", t, n);
    for (k = 0; k < 2; k++) {
        drive *d = &drives[k], before = *d;
        uss_words status = {0x0331, 0x2000, 0, 0};
        uint32_t heard = hear(&d->ear, t, n);
        if (heard == 0) {
            printf("   %s  hears no telegram\n", d->name);
        } else {
            uss_answer a = uss_slave(d->setup, table, sizeof table, d->values, 4, d->control, status, d->ear.page, heard, reply,
                                     sizeof reply);
            d->control = a.control;
            printf("   %s  answer %u: %s\n", d->name, (unsigned)a.number, uss_number_text(a.number));
            if (a.length > 0) {
                memcpy(back, reply, a.length);
                length = a.length;
            }
        }
        show_drive(d, &before);
    }
    if (length > 0)
        show_telegram("reply", back, length);
    else
        printf("   no reply\n");
    return length;
}

/* ---- the master */

static void read_back(uint8_t task, uint16_t parameter, uint8_t index, uint32_t value, uss_words process, const uint8_t *t, size_t n)
{
    uint32_t heard = hear(&master, t, n);
    uss_reply r = uss_read_reply(fan, task, parameter, index, value, process, master.page, heard);
    if (heard == 0)
        printf("   master: hears no telegram\n");
    else if (r.number != USS_DONE)
        printf("   master: refused %u, %s\n", (unsigned)r.number, uss_number_text(r.number));
    else if (r.id == USS_ID_ERROR)
        printf("   master: error %u, %s\n", (unsigned)r.value, uss_error_text(r.value));
    else
        printf("   master: parameter %u index %u is %u (reply ID %u)\n", (unsigned)parameter, (unsigned)index, (unsigned)r.value, (unsigned)r.id);
}

static void ask(uint8_t task, uint16_t parameter, uint8_t index, uint32_t value)
{
    uint8_t telegram[USS_BUFFER], back[USS_BUFFER];
    uss_words process = {0x047E, 0x1111, 0, 0};
    uss_built b = uss_build_task(fan, task, parameter, index, value, process, telegram, sizeof telegram);
    if (b.number != USS_DONE) {
        printf("   master: refused %u, %s; nothing is sent\n", (unsigned)b.number, uss_number_text(b.number));
        return;
    }
    read_back(task, parameter, index, value, process, back, on_the_line(telegram, b.length, back));
}

/* Reading element 0 of 1080, with one byte changed on the way. */
static size_t spoilt(uint8_t *telegram, size_t place, uint8_t byte)
{
    uss_words process = {0x047E, 0x1111, 0, 0};
    uss_built b = uss_build_task(fan, USS_READ_ELEMENT, 1080, 0, 0, process, telegram, USS_BUFFER);
    telegram[place] = byte;
    return b.length;
}

static void noise(size_t place, uint8_t byte)
{
    uint8_t telegram[USS_BUFFER], back[USS_BUFFER];
    on_the_line(telegram, spoilt(telegram, place, byte), back);
}

/* The same, each byte shown with the state of the fan's receiver behind it, and then the pause. */
static void noise_byte_by_byte(size_t place, uint8_t byte)
{
    uint8_t telegram[USS_BUFFER];
    size_t n = spoilt(telegram, place, byte), i;
    uint32_t telegrams = 0;
    printf("   byte ");
    for (i = 0; i < n; i++)
        printf(" %02X", telegram[i]);
    printf("  pause\n   state");
    for (i = 0; i < n; i++) {
        telegrams += hear_byte(&drives[0].ear, telegram[i]) > 0;
        telegrams += hear_byte(&drives[1].ear, telegram[i]) > 0;
        printf(" %2u", (unsigned)drives[0].ear.receiver.state);
    }
    for (i = 0; i < 2; i++)
        drives[i].ear.receiver = uss_pause(drives[i].ear.receiver);
    printf("      %u\n   telegrams handed out: %u\n", (unsigned)drives[0].ear.receiver.state, (unsigned)telegrams);
}

int main(void)
{
    uint8_t telegram[USS_BUFFER], back[USS_BUFFER];
    uss_built b;
    uss_words still = {0x047E, 0x1111, 0, 0}, start = {0x047F, 0x3000, 0, 0};
    size_t n;

    puts("A bus with a fan drive (node 3) and a pump drive (node 5). Both stand still: control word 047E.");
    puts("Values: 700 | 1080.0 1080.1 | 2000");
    puts("The line is quiet: each receiver has heard a pause, and a pause stands behind each telegram.");
    hear(&drives[0].ear, NULL, 0);
    hear(&drives[1].ear, NULL, 0);
    hear(&master, NULL, 0);

    show_step("The master reads the fan's running hours, parameter 2000.");
    ask(USS_READ, 2000, 0, 0);
    show_step("It sets the fan's lowest speed, element 1 of parameter 1080, to 15.");
    ask(USS_CHANGE_ELEMENT_WORD, 1080, 1, 15);
    show_step("It asks for 51, over the limit of 50. The drive answers with an error, and its values stay.");
    ask(USS_CHANGE_ELEMENT_WORD, 1080, 1, 51);
    show_step("It tries to change parameter 700, which is not writable.");
    ask(USS_CHANGE_WORD, 700, 0, 2);
    show_step("It asks for a parameter that no drive has.");
    ask(USS_READ, 1999, 0, 0);
    show_step("It wants to send 70000 as a word. That cannot be said in a telegram.");
    ask(USS_CHANGE_WORD, 1080, 0, 70000);

    show_step("Noise turns a bit of the parameter number.");
    noise(4, 0x39);
    show_step("Noise makes LGE read 254 in a telegram of 16 bytes. It is never whole, and the pause drops it.");
    noise(1, 254);
    show_step("The same byte by byte; such a telegram once stopped a dryer hall. A receiver's state is 1 and the bytes that it holds. "
              "Behind the pause the next task is answered.");
    noise_byte_by_byte(1, 254);
    ask(USS_READ_ELEMENT, 1080, 0, 0);
    show_step("Noise hits the first byte. Only 02 behind a pause opens a telegram.");
    noise(0, 0x03);

    show_step("Noise hits a reply on its way back. The master refuses it; the fan has made the change.");
    b = uss_build_task(fan, USS_CHANGE_ELEMENT_WORD, 1080, 0, 11, still, telegram, sizeof telegram);
    n = on_the_line(telegram, b.length, back);
    back[10] ^= 0x40;
    show_telegram("heard", back, n);
    read_back(USS_CHANGE_ELEMENT_WORD, 1080, 0, 11, still, back, n);
    show_step("The good reply comes late, when the master has asked for element 1: it is not taken for the new one.");
    back[10] ^= 0x40;
    show_telegram("heard", back, n);
    read_back(USS_READ_ELEMENT, 1080, 1, 0, still, back, n);

    show_step("A broadcast starts both drives: bits 0 and 10 of the control word, and the set point. The rest is kept.");
    b = uss_build_broadcast(fan, 6, 0x0401, 0xFFFF, start, telegram, sizeof telegram);
    on_the_line(telegram, b.length, back);
    show_step("A mirror telegram tests the line to the fan: the same bytes come back.");
    b = uss_build_mirror(fan, (const uint8_t *)"echo", 4, telegram, sizeof telegram);
    n = hear(&master, back, on_the_line(telegram, b.length, back));
    printf("   master: %s\n", n == b.length && memcmp(telegram, master.page, n) == 0 ? "same bytes" : "other bytes");
    return 0;
}
