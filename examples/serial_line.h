/* A serial line under Linux, for serial_slave.c and serial_master.c: eight data bits, even parity, one stop bit, and pauses seen by
 * time. Bytes and pauses go to the library's receiver as they come: no byte is looked at here, and no length is believed. Times are
 * in milliseconds; docs/SERIAL.md has the figures. To be included before any other header.
 */
#ifndef SERIAL_LINE_H
#define SERIAL_LINE_H

#define _DEFAULT_SOURCE 1
#include <errno.h>
#include <fcntl.h>
#include <poll.h>
#include <stdint.h>
#include <stdio.h>
#include <stdlib.h>
#include <string.h>
#include <termios.h>
#include <time.h>
#include <unistd.h>

#include "uss.h"

#define LINE_CHARACTER 11L   /* bits of a character: start, eight data bits, parity, stop */
#define LINE_TAKEN 2L        /* a receiver takes so many characters without a byte for a pause */
#define LINE_KEPT 3L         /* a sender keeps so many before it starts */
#define LINE_LONGEST 256L    /* characters of the longest telegram */
#define LINE_REPLY_DELAY 20L /* a slave's reply starts within this time */

typedef struct {
    int fd;
    long baud;
    long slack; /* how much later than on the line a byte may reach this program */
    int quiet;  /* line_quiet has seen a pause */
    int gone;   /* the line cannot be read or written any more */
    uss_receiver receiver;    /* of all that comes */
    uint8_t page[USS_BUFFER]; /* where it puts telegrams together */
} serial_line;

/* The time of so many characters on the line, rounded up. */
static inline long line_time(const serial_line *l, long characters)
{
    return (characters * LINE_CHARACTER * 1000L + l->baud - 1) / l->baud;
}

static inline long line_clock(void)
{
    struct timespec t;
    clock_gettime(CLOCK_MONOTONIC, &t);
    return (long)t.tv_sec * 1000L + t.tv_nsec / 1000000L;
}

/* Waits for a byte to read (POLLIN) or room to write (POLLOUT); below 0 without end. Returns 1 where it is there. */
static inline int line_wait(serial_line *l, short event, long wait)
{
    struct pollfd p;
    int n;
    p.fd = l->fd;
    p.events = event;
    do {
        p.revents = 0;
        n = poll(&p, 1, (int)wait);
    } while (n < 0 && errno == EINTR);
    if (n < 0 || (n > 0 && !(p.revents & event)))
        l->gone = 1;
    return n > 0 && !l->gone;
}

/* Reads what is there, at most `room` bytes. */
static inline size_t line_read(serial_line *l, uint8_t *bytes, size_t room)
{
    ssize_t n = read(l->fd, bytes, room);
    if (n == 0 || (n < 0 && errno != EAGAIN && errno != EINTR))
        l->gone = 1;
    return n > 0 ? (size_t)n : 0;
}

/* Hands the bytes that are there to the receiver. Returns the length of the telegram that the last of them ends, 0 where it ends none,
 * and `length` where no byte is there. */
static inline size_t line_feed(serial_line *l, size_t length)
{
    uint8_t bytes[64];
    size_t n = line_read(l, bytes, sizeof bytes), i;
    uss_received r;
    for (i = 0; i < n; i += (size_t)r.taken) {
        r = uss_receive_bytes(l->receiver, bytes + i, n - i, l->page, sizeof l->page);
        l->receiver = r.receiver;
        length = r.length;
    }
    return length;
}

/* Hands on what comes, bytes and pauses, up to a pause that stands right behind a telegram; that is in `page` then, and its length is
 * returned. Where `wait` is not below 0, a byte is to come within it, and it waits on only while bytes come, for no longer than a
 * telegram takes: 0 where there is no telegram by then. */
static inline size_t line_receive(serial_line *l, long wait)
{
    long end = line_clock() + wait, longest = line_time(l, LINE_LONGEST) + l->slack;
    size_t length = 0;
    int silent = 1; /* the last that was handed on is a pause */
    while (!l->gone) {
        long left = end - line_clock(), first = wait < 0 ? -1 : left > 0 ? left : 0;
        if (line_wait(l, POLLIN, silent ? first : line_time(l, LINE_TAKEN) + l->slack)) {
            length = line_feed(l, length);
            silent = 0;
            if (wait >= 0 && left < -longest)
                return 0;
        } else if (silent) {
            return 0;
        } else {
            l->receiver = uss_pause(l->receiver);
            silent = 1;
            if (length > 0)
                return length;
        }
    }
    return 0;
}

/* Waits until nothing has come for a sender's pause; what comes until then is dropped. Returns 0 where bytes come for longer than a
 * telegram can take. */
static inline int line_quiet(serial_line *l)
{
    long end = line_clock() + line_time(l, LINE_LONGEST) + l->slack;
    l->quiet = 0;
    while (line_wait(l, POLLIN, line_time(l, LINE_KEPT) + l->slack)) {
        line_feed(l, 0);
        if (l->gone || line_clock() >= end)
            return 0;
    }
    l->receiver = uss_pause(l->receiver);
    l->quiet = !l->gone;
    return l->quiet;
}

/* Hands the bytes to the driver, which sends them without a gap. They are on their way when it returns, and take the time of their
 * characters. A driver that has no room for a second is gone. */
static inline void line_send(serial_line *l, const uint8_t *bytes, size_t n)
{
    while (n > 0 && !l->gone) {
        ssize_t put = line_wait(l, POLLOUT, 1000) ? write(l->fd, bytes, n) : 0;
        if (put > 0) {
            bytes += put;
            n -= (size_t)put;
        } else if (put == 0 || (errno != EAGAIN && errno != EINTR))
            l->gone = 1;
    }
}

/* The rates that every Linux has, by their names; B0 for another. */
static inline speed_t line_speed(long baud)
{
    switch (baud) {
    case 1200: return B1200;
    case 2400: return B2400;
    case 4800: return B4800;
    case 9600: return B9600;
    case 19200: return B19200;
    case 38400: return B38400;
    case 57600: return B57600;
    case 115200: return B115200;
    default: return B0;
    }
}

/* Opens the line, and waits for a pause: only behind one does a telegram start. Returns 0, or 1 with `errno`. */
static inline int line_open(serial_line *l, const char *device, long baud, long slack)
{
    speed_t speed = line_speed(baud);
    struct termios t;
    l->baud = baud;
    l->slack = slack;
    l->gone = 0;
    l->receiver.state = 0;
    l->fd = open(device, O_RDWR | O_NOCTTY | O_NONBLOCK);
    if (l->fd < 0 || tcgetattr(l->fd, &t) != 0)
        return 1;
    cfmakeraw(&t);
    t.c_cflag &= ~(tcflag_t)(PARODD | CSTOPB | CRTSCTS);
    t.c_cflag |= CS8 | PARENB | CREAD | CLOCAL;
    /* a byte whose parity is wrong is left out: too few come for a telegram then, and the pause behind them drops what was begun */
    t.c_iflag |= INPCK | IGNPAR | IGNBRK;
    /* EINVAL says that the line has no parity, as a pseudo terminal has none, and that nothing else was to be set */
    if (cfsetispeed(&t, speed) != 0 || cfsetospeed(&t, speed) != 0 || (tcsetattr(l->fd, TCSANOW, &t) != 0 && errno != EINVAL)
        || tcgetattr(l->fd, &t) != 0)
        return 1;
    errno = EINVAL;
    if (cfgetispeed(&t) != speed || cfgetospeed(&t) != speed)
        return 1;
    line_quiet(l);
    return 0;
}

/* A number of the arguments, or -1. */
static inline long line_number(const char *text)
{
    char *end;
    long n = strtol(text, &end, 10);
    return end == text || *end != '\0' ? -1 : n;
}

/* Opens the line that the arguments name: DEVICE [BAUD [SLACK]]. Ends the program with 2 where that cannot be done. */
static inline serial_line line_of(int count, char **arguments, long slack)
{
    serial_line l;
    long baud = 9600;
    if (count > 2)
        baud = line_number(arguments[2]);
    if (count > 3)
        slack = line_number(arguments[3]);
    if (count < 2 || count > 4 || line_speed(baud) == B0 || slack < 0 || slack > 1000) {
        fprintf(stderr, "usage: %s DEVICE [BAUD [SLACK]], BAUD 1200 to 115200, SLACK 0 to 1000 ms\n", arguments[0]);
        exit(2);
    }
    if (line_open(&l, arguments[1], baud, slack) != 0) {
        fprintf(stderr, "%s: %s\n", arguments[1], strerror(errno));
        exit(2);
    }
    return l;
}

#endif
