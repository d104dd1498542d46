/* The smallest drive: a slave at node 3 on the serial line of the emulator's board with a Cortex-M3 (mps2-an385). Two interrupts
 * note what comes on the line, bytes and pauses; the main loop hands it to the receiver, calls the slave and sends. The lines of
 * docs/CHIPS.md build it, send it the known telegram K2 of document 01, and show its reply, K3. */
#include "uss.h"

/* ---- the board */

#define REGISTER(address) (*(volatile uint32_t *)(address))
#define UART_DATA REGISTER(0x40004000)
#define UART_STATE REGISTER(0x40004004) /* bit 0: no room to send */
#define UART_CONTROL REGISTER(0x40004008)
#define UART_INTERRUPT REGISTER(0x4000400C)
#define UART_DIVISOR REGISTER(0x40004010)
#define ENABLE_INTERRUPTS REGISTER(0xE000E100)
#define TIMER_CONTROL REGISTER(0xE000E010)
#define TIMER_OFF 0u
#define TIMER_ON 7u /* by the processor's clock, with an interrupt when it has run down */
#define TIMER_FROM REGISTER(0xE000E014)
#define TIMER_NOW REGISTER(0xE000E018)
#define PENDING REGISTER(0xE000ED04)
#define NO_TIMER_PENDING (1u << 25)
#define PAUSE 5000000u /* 200 ms at 25 MHz, for an emulator on a busy machine; a drive takes two characters' time */

/* ---- the parameters: the table stays in flash, the values are in RAM, one for each element */

static const uint8_t table[] = {
    0x08, 0x74, 0x40, 0, 0, 0, 0, 0,    0, 0, 0xFD, 0xE8, /* 1082: word, can be written, 0 to 65000 */
    0x08, 0x7A, 0xC0, 0, 0, 0, 0xFF, 0x9C, 0, 0, 0, 0x64, /* 1085: signed word, can be written, -100 to 100 */
};
static uint32_t values[2] = {5000, 0};
static const uss_setup setup = {3, 4, 2};

/* ---- the interrupts: what comes on the line, in its order
 *
 * A ring of items for uss_receive. The interrupts put them in and the main loop takes them out: each side writes its own place
 * alone, and no receiver and no page is shared. The two interrupts have the same priority, so neither breaks into the other. */

static volatile uint16_t ring[256];
static volatile uint8_t put_at, take_at; /* both go round by themselves; where they are the same the ring is empty */
#define PAUSE_AFTER_LOSS (USS_PAUSE + 1) /* to the receiver it is a pause like any other */

/* Where the ring was full nothing goes in up to a pause that finds room. That one drops a telegram that has lost bytes, and none
 * counts by it. */
static void put(uint16_t item)
{
    static uint8_t lost;
    uint8_t next = (uint8_t)(put_at + 1);
    if (next == take_at) {
        lost = 1;
    } else if (!lost || item == USS_PAUSE) {
        ring[put_at] = lost ? PAUSE_AFTER_LOSS : item;
        lost = 0;
        put_at = next; /* last: from here on the main loop sees the item */
    }
}

/* A byte, and the timer starts again. */
static void uart_received(void)
{
    UART_INTERRUPT = 2; /* first: the next byte may come as soon as this one is read */
    put((uint8_t)UART_DATA);
    TIMER_NOW = 0;
    TIMER_CONTROL = TIMER_ON;
    PENDING = NO_TIMER_PENDING; /* it may just have run down: the byte came first */
}

/* No byte for so long: a pause, once, however long it lasts. */
static void timer_ran_down(void)
{
    TIMER_CONTROL = TIMER_OFF;
    put(USS_PAUSE);
}

/* ---- the main loop */

static uint16_t take(void)
{
    uint16_t item;
    while (take_at == put_at)
        ;
    item = ring[take_at];
    take_at = (uint8_t)(take_at + 1); /* last: from here on the place may be written */
    return item;
}

static void send(const uint8_t *bytes, uint32_t len)
{
    while (len-- > 0) {
        while (UART_STATE & 1)
            ;
        UART_DATA = *bytes++;
    }
}

static void run(void)
{
    static uint8_t page[USS_BUFFER], reply[USS_BUFFER];
    uss_receiver receiver = {0};
    uss_words control = {0, 0, 0, 0}, status = {0x0331, 0x2000, 0, 0};
    uint32_t length = 0; /* of the telegram in `page`, where the item before this one was its last byte */
    TIMER_FROM = PAUSE;
    UART_DIVISOR = 16;
    UART_CONTROL = 1 | 2 | 8; /* send, receive, interrupt at a byte */
    ENABLE_INTERRUPTS = 1;
    TIMER_NOW = 0;
    TIMER_CONTROL = TIMER_ON;
    for (;;) {
        uint16_t item = take();
        uss_received r = uss_receive(receiver, &item, 1, page, sizeof page);
        receiver = r.receiver;
        /* A telegram counts with a pause behind it, so the reply starts no earlier than a pause after its task. The pause does not
         * touch the page, the next 02 would. Only this loop hands it on: what comes while the slave is at work waits in the ring. */
        if (item == USS_PAUSE && length > 0) {
            uss_answer a = uss_slave(setup, table, sizeof table, values, sizeof values / sizeof values[0], control, status, page,
                                     length, reply, sizeof reply);
            control = a.control; /* here the motor is told */
            if (take_at == put_at) /* else somebody speaks: it is too late for a reply */
                send(reply, a.length);
        }
        length = r.length;
    }
}

/* ---- the start */

extern uint32_t data_start[], data_end[], data_load[], bss_end[], stack_top[];

static void start(void)
{
    uint32_t *to = data_start, *from = data_load;
    while (to < data_end)
        *to++ = *from++;
    while (to < bss_end)
        *to++ = 0;
    run();
}

static void halt(void)
{
    for (;;)
        ;
}

__attribute__((section(".vectors"), used)) const void *const vectors[17] = {
    stack_top,          (const void *)start, (const void *)halt, (const void *)halt, (const void *)halt, (const void *)halt,
    (const void *)halt, 0, 0, 0, 0,          (const void *)halt, (const void *)halt, 0,                  (const void *)halt,
    (const void *)timer_ran_down, (const void *)uart_received,
};
