"""A drive (target/serial_slave) and a master (target/serial_master) with a pseudo terminal each, and what is carried between them."""
import os
import re
import select
import subprocess
import time
import tty

from checks import Wrong, same
from damage import frame_number, taken

BAUD = 1200         # a slow line: the master waits long for a reply
DRIVE_SLACK = 5     # ms; a page comes whole
MASTER_SLACK = 300  # ms; so long may this machine do other things
QUIET = 0.328       # s that the master finds the line quiet before it sends: 28 ms are three characters
NEXT = 0.647        # s from a reply to the next task: 319 ms until its end is seen, and QUIET
LATE = 0.483        # s from a page to what is to come between its end and the next telegram
UNSAID = 0.2        # s for the drive to see the pause behind bytes of which it says nothing
IN_TIME = 0.4       # s from a task to a reply behind noise: between 319 ms, when the pause is seen, and 476 ms
GIVEN_UP = 0.64     # s from a task to what is to come between 476 ms, when it is given up, and 804 ms, when the next is sent
LIMIT = 60          # s; what takes longer hangs
TIMES = []          # s from each task to its reply


def fill(line):
    """Writes until there is no room left, and none comes by itself."""
    more = True
    while more:
        more = False
        try:
            while os.write(line, bytes(4096)):
                more = True
        except BlockingIOError:
            time.sleep(0.1)


def answers_in(text):
    """What a drive has printed of each telegram: its bytes, the answer, the answer's text, and the state after it."""
    found = re.findall(r"^(\d+) bytes, answer (\d+), ([^;]*); (.*)\n", text, re.M)
    return [(int(count), int(number), words, state) for count, number, words, state in found]


def untouched(telegram, _):
    return [telegram]


class Bus:
    def __init__(self):
        self.end = time.monotonic() + LIMIT
        self.programs, self.status = {}, {}
        self.near, self.far = {}, {}   # the two sides of each pseudo terminal: ours, and the program's
        self.sources = {}              # what can be read: whose it is, and whether it is the line
        self.came, self.said = {}, {}  # bytes that are not yet carried on, and what was printed
        self.sent = {}                 # telegrams that were carried on, or dropped

    def __enter__(self):
        return self

    def __exit__(self, *_):
        for program in self.programs.values():
            if program.poll() is None:
                program.kill()
            program.wait()
            program.stdout.close()
        for who in list(self.near):
            self.hang_up(who)

    def start(self, who, slack, baud=BAUD, full=False):
        """Puts a program on a new pseudo terminal, or on its old one; on one that takes no more bytes, where it is to be full."""
        if who not in self.near:
            self.near[who], self.far[who] = os.openpty()
            tty.setraw(self.far[who])
            for side in (self.near[who], self.far[who]):
                os.set_blocking(side, False)
        self.came[who], self.said[who], self.sent[who] = bytearray(), "", []
        self.status.pop(who, None)
        if full:
            fill(self.far[who])
        else:
            self.sources[self.near[who]] = (who, True)
        program = subprocess.Popen([f"target/serial_{who}", os.ttyname(self.far[who]), str(baud), str(slack)],
                                   stdin=subprocess.DEVNULL, stdout=subprocess.PIPE, stderr=subprocess.STDOUT)
        self.programs[who] = program
        self.sources[program.stdout.fileno()] = (who, False)

    def drive(self, baud=BAUD, slack=DRIVE_SLACK):
        """Puts a drive on the line."""
        self.start("slave", slack, baud)
        self.pause = 22 / baud + slack / 1000
        self.pump(lambda: "on the line\n" in self.said["slave"])

    def hang_up(self, who):
        """The line goes away."""
        self.sources.pop(self.near[who], None)
        os.close(self.near.pop(who))
        os.close(self.far.pop(who))

    def pump(self, until, seconds=None):
        """Takes in what the programs send and print until something holds, or, where a time is given, until it is over."""
        end = self.end if seconds is None else time.monotonic() + seconds
        while not until():
            left = end - time.monotonic()
            if left <= 0 and seconds is None:
                raise Wrong(f"nothing more after {LIMIT} s; printed so far: {self.said}")
            if left <= 0:
                return
            for source in select.select(list(self.sources), [], [], left)[0]:
                self.take(source)

    def take(self, source):
        who, line = self.sources[source]
        try:
            got = os.read(source, 4096)
        except BlockingIOError:
            return
        if line:
            self.came[who] += got
        elif got:
            self.said[who] += got.decode()
        else:
            del self.sources[source]
            self.programs[who].stdout.close()
            self.status[who] = self.programs[who].wait(LIMIT)

    def telegram(self, who):
        """Waits for a program's next telegram, which is sound, and takes it; None where the program ends."""
        came = self.came[who]
        self.pump(lambda: len(came) > 1 and len(came) >= came[1] + 2 or who in self.status)
        if not came:
            return None
        telegram = bytes(came[:came[1] + 2])
        del came[:len(telegram)]
        same(f"the {who} sends", frame_number(telegram), 0)
        self.sent[who].append(telegram)
        return telegram

    def tries(self):
        """How often each telegram of the master's was sent."""
        sent = self.sent["master"]
        return [sent.count(telegram) for telegram in dict.fromkeys(sent)]

    def write(self, who, page):
        same("bytes written", os.write(self.near[who], page), len(page))

    def write_lots(self, who, page, lots):
        """Writes a page in lots, with gaps of 20 ms between them, as an adapter may hand it over."""
        for place in range(lots):
            if place > 0:
                self.pump(lambda: False, 0.02)
            self.write(who, page[place * len(page) // lots:(place + 1) * len(page) // lots])

    def answers(self):
        return answers_in(self.said["slave"])

    def serve(self, page, lots=1):
        """Gives the drive bytes with a pause behind them, in so many lots, and waits until it has said its answer, or for some time where
        there is no telegram in them and it is to say nothing. Returns its reply, or None."""
        before = len(self.answers())
        start = time.monotonic()
        self.write_lots("slave", page, lots)
        self.pump(lambda: len(self.answers()) > before, None if taken(page) else UNSAID)
        said = self.answers()[before:]
        same(f"what the drive says of {page.hex(' ')}: bytes", [count for count, *_ in said], [len(page)] if taken(page) else [])
        if not said:
            return None
        if time.monotonic() - start < self.pause:
            raise Wrong(f"the drive answers after {time.monotonic() - start} s, before the pause of {self.pause} s")
        number = said[0][1]
        if frame_number(page):
            same(f"the drive's answer to {page.hex(' ')}", number, frame_number(page))
        return self.telegram("slave") if number < 2 else None

    def carry(self, tasks=untouched, replies=untouched, lots=1):
        """Carries telegrams between the two until the master ends, each by a function that makes pages of it and of how often its task
        was sent in a row. The master keeps its pauses."""
        last, tries, soonest = None, 0, 0
        while (task := self.telegram("master")) is not None:
            start = time.monotonic()
            if start < soonest:
                raise Wrong(f"the master sends {soonest - start} s too soon")
            last, tries = task, tries + 1 if task == last else 1
            for page in tasks(task, tries):
                reply = self.serve(page)
                for place, part in enumerate(replies(reply, tries) if reply else []):
                    if place == 0:
                        TIMES.append(time.monotonic() - start)
                    else:
                        self.pump(lambda: self.came["master"], LATE)
                        if self.came["master"]:
                            break  # too late: the next try is sent, and it is not this that is to be damaged
                    soonest = time.monotonic() + (QUIET if place > 0 else NEXT)
                    self.write_lots("master", part, lots)

    def ends(self):
        """The drive has sent no more than its replies, and ends when its line goes away."""
        same("what the drive sends without being asked", bytes(self.came["slave"]), b"")
        self.hang_up("slave")
        self.pump(lambda: "slave" in self.status)
        same("the drive's status", self.status["slave"], 0)
