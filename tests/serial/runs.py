"""The examples of a serial line over pseudo terminals: what one sends is carried to the other, and damaged on the way.
    python3 -B tests/serial/runs.py [SEED]
All runs are made at once, since they wait most of the time. None is without end, and none depends on a time that a busy machine may not
keep, but for two: a reply is to reach the master within some 400 ms, and the drive is to see a pause within 200 ms."""
import os
import random
import re
import resource
import subprocess
import sys
import time

from bus import GIVEN_UP, IN_TIME, LIMIT, MASTER_SLACK, TIMES, UNSAID, Bus, answers_in
from checks import Wrong, all_hold, same, text_of
from damage import EXCHANGES, HARMLESS, KINDS, is_broadcast, number_of, taken
from page import answers_of

SEED = sys.argv[1] if len(sys.argv) > 1 else "1"
TRIES = 3  # of the master
MASTER, DRIVE = (text_of(f"examples/expected/serial_{who}.txt") for who in ("master", "slave"))
CLEAN = answers_in(DRIVE)


def once(answers):
    """Those that are not refusals, each once, however often it was asked for in a row."""
    kept = [answer for answer in answers if answer[1] < 10]
    return [answer for place, answer in enumerate(kept) if place == 0 or answer != kept[place - 1]]


def refusals_keep(answers):
    """A refusal leaves the state as it was."""
    state = "control word 0000, set point 0000, parameter 700 is 5"
    for count, number, words, after in answers:
        if number >= 10:
            same(f"the state after {count} bytes and {number}, {words}", after, state)
        state = after


def with_both(bus, **ways):
    """A drive and a master on the line until the master ends; the way of tasks, replies, or both."""
    bus.drive()
    bus.start("master", MASTER_SLACK)
    bus.carry(**ways)


def noted(telegrams):
    """A way on which nothing is damaged, and each telegram is noted."""
    return lambda telegram, _: telegrams.append(telegram.hex()) or [telegram]


def clean():
    """Nothing is damaged."""
    tasks, replies = [], []
    with Bus() as bus:
        with_both(bus, tasks=noted(tasks), replies=noted(replies))
        same("the master prints", bus.said["master"], MASTER)
        same("the drive prints", bus.said["slave"], DRIVE)
        same("the master's status", bus.status["master"], 0)
        same("the tasks", tasks, [task.hex() for task, _ in EXCHANGES] + [EXCHANGES[-1][0].hex()])
        same("the replies", replies, [reply.hex() for _, reply in EXCHANGES if reply])
        bus.ends()


def damaged_twice(kind, way):
    """The first two tries are damaged, and the first of two broadcasts: all comes out as on the clean line."""
    dice = random.Random(f"{SEED} {kind} {way}")

    def damage(telegram, tries):
        hit = tries < (2 if is_broadcast(telegram) else TRIES)
        return dice.choice(list(KINDS[kind](telegram))) if hit else [telegram]

    with Bus() as bus:
        with_both(bus, **{way: damage})
        same("the master prints", bus.said["master"], MASTER)
        same("the master's status", bus.status["master"], 0)
        if (kind, way) != ("a pause inside", "replies"):  # on a slow machine the second part may come before the pause is seen
            same("tries", bus.tries(), [1 if (kind, way) == (HARMLESS, "tasks") else TRIES] * 4 + [2])
        same("the drive's answers", once(bus.answers()), once(CLEAN))
        refusals_keep(bus.answers())
        refused = {number for _, number, _, _ in bus.answers() if number >= 10}
        told = answers_of(kind) if way == "tasks" else [None]
        if not refused <= set(told) or (told[0] and told[0] not in refused):
            raise Wrong(f"refusals {sorted(refused)}, docs/SERIAL.md has {told}")
        bus.ends()


def damaged_always(way):
    """Every try is damaged, each in another way: the master says so, and a drive that got no sound task is as it was."""
    dice = random.Random(f"{SEED} {way}")
    kinds = [kind for kind in KINDS if way == "replies" or kind != HARMLESS]
    found = []  # how often the master had tried, and the number of what it got then, None where that is nothing

    def damage(telegram, tries):
        pages = dice.choice(list(KINDS[kinds[len(found) % len(kinds)]](telegram)))
        if way == "replies":
            pages = pages[:1]  # what follows a pause is never sent
        found.append((tries, number_of(taken(pages[0])) if pages and way == "replies" else None))
        return pages

    with Bus() as bus:
        with_both(bus, **{way: damage})
        same("the master's status", bus.status["master"], 1)
        lines = bus.said["master"].splitlines()
        same("the master's last line of five", lines[4:], ["broadcast: sent"])
        for line, number in zip(lines, [number for tries, number in found if tries == TRIES]):
            said = re.fullmatch(r"[^:]*: (?:(no reply|not the same bytes)|not read, (\d+): .*)", line)
            if not said or (said[1] == "no reply") != (number is None) or (said[2] and int(said[2]) != number):
                raise Wrong(f"the master says: {line}; it was {number}")
        same("the drive's answers", once(bus.answers()), once(CLEAN) if way == "replies" else [])
        refusals_keep(bus.answers())
        bus.ends()


def late_reply():
    """All replies to one task are held back until it is given up: what comes then is dropped, and not taken for the next task's."""
    held = EXCHANGES[1][0]
    with Bus() as bus:
        bus.drive()
        bus.start("master", MASTER_SLACK)
        while (task := bus.telegram("master")) is not None:
            reply = bus.serve(task)
            if task == held and bus.sent["master"].count(held) < TRIES or not reply:
                continue
            if task == held:
                bus.pump(lambda: bus.came["master"], GIVEN_UP)
            if not bus.came["master"]:  # else this machine was too slow, and the next task is sent
                bus.write("master", reply)
        same("the master prints", bus.said["master"], re.sub("6000; .*", "no reply", MASTER))
        same("tries", bus.tries(), [1, TRIES, 1, 1, 2])
        bus.ends()


def noise_before_reply():
    """Noise comes before a reply, and a pause between them: the master reads the reply, and at least one at its first try, so that a machine
    that was too slow for another does not matter."""
    with Bus() as bus:
        bus.drive()
        bus.start("master", MASTER_SLACK)
        while (task := bus.telegram("master")) is not None:
            start = time.monotonic()
            noisy = task in [task for task, _ in EXCHANGES[1:4]]
            if noisy:
                bus.write("master", b"\xff\x02\x0e")
            reply = bus.serve(task)
            if noisy:
                bus.pump(lambda: bus.came["master"], start + IN_TIME - time.monotonic())
            if reply and not bus.came["master"]:
                bus.write("master", reply)
        same("the master prints", bus.said["master"], MASTER)
        if 1 not in bus.tries()[1:4]:
            raise Wrong(f"tries: {bus.tries()}")
        bus.ends()


def in_lots():
    """What comes in lots with gaps shorter than the slack is one telegram."""
    with Bus() as bus:
        bus.drive(slack=MASTER_SLACK)
        for task, reply in EXCHANGES[1:4]:
            same("the reply", bus.serve(task, lots=4), reply)
        bus.ends()
    with Bus() as bus:
        with_both(bus, lots=4)
        same("the master prints", bus.said["master"], MASTER)
        same("tries", bus.tries(), [1, 1, 1, 1, 2])
        bus.ends()


def nobody():
    """Nobody is at the other end, twice on one terminal: the second time it is set as it is to be."""
    words = re.sub(r"(?m)^((?!broadcast).*?): .*", r"\1: no reply", MASTER)
    with Bus() as bus:
        for _ in range(2):
            start = time.monotonic()
            bus.start("master", 20, 9600)
            bus.pump(lambda: "master" in bus.status)
            same("the master's status and words", (bus.status["master"], bus.said["master"]), (1, words))
        return f"{time.monotonic() - start:.1f} s"


def noise_without_end():
    """Both hear noise without end. The master ends; and when it is over, the drive answers another master."""
    dice = random.Random(f"{SEED} noise")
    with Bus() as bus:
        bus.drive(57600)
        bus.start("master", 20, 57600)
        start = time.monotonic()
        while "master" not in bus.status:
            for who in ("slave", "master"):
                try:
                    os.write(bus.near[who], dice.randbytes(5))
                except BlockingIOError:
                    pass  # it does not read fast enough: there is noise enough
            bus.pump(lambda: "master" in bus.status, 0.004)
            if time.monotonic() > bus.end:
                raise Wrong(f"the master goes on; it printed {bus.said['master']}")
        took = time.monotonic() - start
        same("the master's status", bus.status["master"], 1)
        for line in bus.said["master"].splitlines()[:4]:
            if not re.fullmatch(r"[^:]*: (the line is never quiet|no reply|not the same bytes|not read, 1\d: .*)", line):
                raise Wrong(f"the master says: {line}")
        bus.start("master", MASTER_SLACK)
        bus.pump(lambda: False, UNSAID)  # the noise is over, and the pause behind it was seen
        same("what the drive takes of noise", once(bus.answers()), [])
        refusals_keep(bus.answers())
        bus.carry()
        same("the master prints afterwards", bus.said["master"], MASTER)
        same("the drive's answers afterwards", bus.answers()[-len(CLEAN):], CLEAN)
        bus.ends()
        return f"the master ends in {took:.1f} s"


def line_gone():
    """The master's line goes away; then it has one that takes no bytes."""
    gone = re.sub(r": .*", ": the line is gone", MASTER)
    with Bus() as bus:
        bus.start("master", 20, 9600)
        bus.telegram("master")
        bus.hang_up("master")
        bus.pump(lambda: "master" in bus.status)
        same("status and words of a master whose line goes away", (bus.status["master"], bus.said["master"]), (1, gone))
    with Bus() as bus:
        bus.start("master", 20, 9600, full=True)
        bus.pump(lambda: "master" in bus.status)
        same("status and words of a master without room to send", (bus.status["master"], bus.said["master"]), (1, gone))


def hears_itself():
    """A drive that hears its reply answers it; a master that hears its tasks reads a value of 0. docs/SERIAL.md warns of both."""
    with Bus() as bus:
        bus.drive()
        reply = bus.serve(bytes.fromhex("020E03143A000000000000047F20007A"))
        for _ in range(3):
            same("the reply to a reply", bus.serve(reply), reply)
        bus.ends()
    with Bus() as bus:
        bus.start("master", MASTER_SLACK)
        while (task := bus.telegram("master")) is not None:
            bus.write("master", task)
        lines = bus.said["master"].splitlines()
        same("the mirror", lines[0], "mirror: the same bytes")
        same("the task read as its reply", lines[3], "parameter 700: 0; status word 047F, actual value 2000")


def refused_arguments():
    """Usage, and devices that are none: status 2, one line, nothing else."""
    usage = ["", "a 9600 3 b", "a 9601", "a 9600x", "a 0", "a 9600 -1", "a 9600 1001", "a 9600 x"]
    devices = ["target/none", "/dev/null", "tests", "README.md"]
    for program in ("target/serial_slave", "target/serial_master"):
        for arguments in usage + devices:
            said = subprocess.run([program, *arguments.split()], stdin=subprocess.DEVNULL, capture_output=True, text=True, timeout=LIMIT)
            same(f"{program} {arguments}: status and output", (said.returncode, said.stdout), (2, ""))
            start = f"usage: {program} DEVICE" if arguments in usage else f"{arguments}: "
            if not said.stderr.startswith(start) or said.stderr.count("\n") != 1:
                raise Wrong(f"{program} {arguments} says: {said.stderr}")


def go_first():
    """Lets the programs and what is between them go before other work, where that is allowed, and never for over two seconds at once:
    they do little, but are to be in time."""
    try:
        resource.setrlimit(resource.RLIMIT_RTTIME, (2000000, 2000000))
        os.sched_setscheduler(0, os.SCHED_RR, os.sched_param(1))
    except (OSError, ValueError):
        pass


RUNS = [("clean line", clean)]
RUNS += [(f"{kind}, {way} damaged twice", damaged_twice, kind, way) for kind in KINDS for way in ("tasks", "replies")]
RUNS += [(f"all {way} damaged", damaged_always, way) for way in ("tasks", "replies")]
RUNS += [("bytes in lots", in_lots), ("noise before a reply", noise_before_reply), ("a reply that comes too late", late_reply),
         ("nobody at the other end", nobody), ("noise without end", noise_without_end), ("the line goes away", line_gone),
         ("who hears itself", hears_itself), ("arguments that are refused", refused_arguments)]

if __name__ == "__main__":
    go_first()
    hold = all_hold([(f"serial line: {what}", *run) for what, *run in RUNS])
    print(f"serial line: {len(TIMES)} replies carried, the slowest after {1000 * max(TIMES, default=0):.0f} ms")
    sys.exit(not hold)
