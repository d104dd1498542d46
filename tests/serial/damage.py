"""The telegrams of the examples on a clean line, what may become of a telegram on the way, and what a receiver makes of that."""

# tasks of the master, each with the drive's reply: mirror, read 1082 element 1, change 700, read 700, broadcast
EXCHANGES = [(bytes.fromhex(task), bytes.fromhex(reply)) for task, reply in (
    ("02074368656C6C6F24", "02074368656C6C6F24"),
    ("020E03643A000100000000047F20000B", "020E03443A0001000017700331200005"),
    ("020E0322BC000000000007047F2000CD", "020E0312BC00000000000703312000B4"),
    ("020E0312BC000000000000047F2000FA", "020E0312BC00000000000703312000B4"),
    ("020E200002040100000000040000002F", ""),
)]


def frame_number(page):
    """The frame check in the order of docs/PROTOCOL.md: 10 to 14, or 0."""
    if len(page) < 5:
        return 10
    if page[0] != 2:
        return 11
    if not 3 <= page[1] <= 254:
        return 12
    if len(page) != page[1] + 2:
        return 13
    check = 0
    for byte in page:
        check ^= byte
    return 14 if check else 0


def handed_out(page):
    """What the receiver hands out of the bytes between two pauses, by the rule of docs/CALLS.md; None where that is nothing. 02 opens a
    telegram and any other first byte none; an LGE outside 3 to 254 ends it; it is whole with LGE + 2 bytes, and whatever comes behind it
    is ignored; with fewer the pause drops it."""
    if len(page) < 2 or page[0] != 2 or not 3 <= page[1] <= 254 or len(page) < page[1] + 2:
        return None
    return page[:page[1] + 2]


def taken(page):
    """What the examples take of it: the telegram with the pause behind it, and no byte before that."""
    return page if handed_out(page) == page else None


def number_of(telegram):
    """What is said of a telegram that a receiver handed out: 14 or 0; None where it handed out none."""
    return None if telegram is None else frame_number(telegram)


def is_broadcast(telegram):
    return telegram[2] & 0x20 != 0


# ---- each kind of damage: all that it can make of a telegram, as pages with a pause after each


def flipped(telegram):
    for place in range(8 * len(telegram)):
        page = bytearray(telegram)
        page[place // 8] ^= 1 << place % 8
        yield [bytes(page)]


def lost(telegram):
    for place in range(len(telegram)):
        yield [telegram[:place] + telegram[place + 1:]]


def added(telegram):
    for place in range(len(telegram) + 1):
        for byte in range(256):
            yield [telegram[:place] + bytes([byte]) + telegram[place:]]


def cut(telegram):
    for place in range(1, len(telegram)):
        yield [telegram[:place], telegram[place:]]


def doubled(telegram):
    yield [telegram + telegram]


def noisy(telegram):
    for noise in ("FF", "00FF", "7E8100", "FEFEFEFE", "00AA55F0020E", "FF020E0304050607", "80" * 20):
        yield [bytes.fromhex(noise), telegram]


def lying(telegram):
    yield [telegram[:1] + b"\xfe" + telegram[2:]]


def swallowed(_):
    yield []


# by the words of docs/SERIAL.md
KINDS = {
    "a pause inside": cut,
    "one bit flipped": flipped,
    "a byte lost": lost,
    "a byte added": added,
    "no pause between two": doubled,
    "noise and a pause in front": noisy,
    "LGE reads 254": lying,
    "nothing arrives": swallowed,
}
HARMLESS = "noise and a pause in front"  # the telegram behind the pause is taken
