"""Scripts to measure by: each is made anew by one rule, so that it is the same at each run."""

import random

HEAD = b"dss 1\nlevel U 0 -\nlevel S 2 a\nhost 1 U\nhost 2 U\nhost 5 S\nhost 6 S\nbegin\n"


def by_turns(count, body):
    """Sends of hosts 1 and 5 by turns, each delivered once."""
    lines = []
    for i in range(count // 2):
        a, b = ((1, 2), (5, 6))[i % 2]
        lines.append(b"send %d %d %s\ndeliver %d>%d#%d.0 to %d\n" % (a, b, body, a, b, i // 2, b))
    return HEAD + b"".join(lines) + b"end\n"


def sized(size):
    """A script of at most `size` bytes: sends of 88 bytes, and one shorter that fills it up."""
    line = b"send 1 2 " + b"5a" * 88 + b"\n"
    room = size - len(HEAD) - len(b"end\n")
    count = room // len(line)
    rest = (room - count * len(line) - len(b"send 1 2 \n")) // 2
    last = b"send 1 2 " + b"5a" * rest + b"\n" if rest > 0 else b""
    return HEAD + line * count + last + b"end\n"


def roster(hosts, sealing):
    """Two levels, U below S; the hosts with odd addresses are at U, those with even ones at S."""
    lines = ["dss 1"]
    if sealing == "des":
        lines.append("seal des")
    lines += ["level U 0 -", "level S 2 a"]
    if sealing == "des":
        lines += ["key U 133457799bbcdff1 0e329232ea6d0d73", "key S 2bd6459f82c5b300 5b5a57676a56676e",
                  "guard 0123456789abcdef fedcba9876543210"]
    return lines + [f"host {a} {'SU'[a % 2]}" for a in range(1, hosts + 1)] + ["begin"]


class Day:
    """What hosts send and ask, and what the network hands over, by one sequence of random numbers."""

    def __init__(self, hosts, most, longest):
        self.random = random.Random(1983)
        self.hosts = hosts
        self.most = most
        self.longest = longest
        self.numbers = {}
        self.waiting = []
        self.lines = []

    def number(self, a, b):
        """The number of the next message from one party to another."""
        number = self.numbers.get((a, b), 0)
        self.numbers[a, b] = number + 1
        return number

    def body(self, longest):
        """Some bytes; one in a hundred times as many as `longest`, where that isn't 0."""
        is_long = longest and self.random.randrange(100) == 0
        return self.random.randbytes(longest if is_long else self.random.randint(1, self.most)).hex()

    def send(self):
        a = self.random.randint(1, self.hosts)
        b = (a + 2 * self.random.randint(1, self.hosts // 2 - 1) - 1) % self.hosts + 1
        self.lines.append(f"send {a} {b} {self.body(self.longest)}")
        self.waiting.append((a, b, self.number(a, b)))

    def carry(self):
        a, b, number = self.waiting.pop(0)
        self.lines.append(f"carry {a}>{b}#{number} to {b}")

    def ask(self):
        """A file call, which is carried to the manager and its reply back."""
        a = self.random.randint(1, self.hosts)
        level = "SU"[a % 2]
        name = f"f{self.random.randrange(100)}"
        self.lines.append(self.random.choice((
            f"put {a} {name} {self.body(4096)}", f"append {a} {name} {self.body(4096)}",
            f"get {a} {level} {name}", f"get {a} U {name}", f"block {a} {level} {name} 0",
            f"list {a} {level}")))
        number = self.number(a, level)
        self.lines.append(f"carry {a}>{level}#{number} to {level}")
        self.lines.append(f"carry {level}>{a}#{number} to {a}")


def text(lines):
    return "".join(line + "\n" for line in lines).encode()


def messages(hosts, count, sealing, most, longest=0):
    """Events in which messages are sent and each is carried once, with up to sixteen on their way."""
    day = Day(hosts, most, longest)
    while len(day.lines) < count:
        if day.waiting and (len(day.waiting) == 16 or day.random.randrange(2)):
            day.carry()
        else:
            day.send()
    return text(roster(hosts, sealing) + day.lines + ["end"])


def sends(hosts, count):
    """Sends alone, of 100 to 200 bytes."""
    day = Day(hosts, 0, 0)
    for _ in range(count):
        a, b = day.random.randint(1, hosts), day.random.randint(1, hosts)
        day.lines.append(f"send {a} {b} {day.random.randbytes(day.random.randint(100, 200)).hex()}")
    return text(roster(hosts, "clear") + day.lines + ["end"])


def twice(path):
    """The script in a file, two times over."""
    with open(path, "rb") as file:
        return 2 * file.read()


def files_and_messages(hosts, count):
    """The same, where one event in three is of a file call that is carried and answered."""
    day = Day(hosts, 240, 5632)
    while len(day.lines) < count - 2:
        if day.random.randrange(7) == 0:
            day.ask()
        elif day.waiting and (len(day.waiting) == 16 or day.random.randrange(2)):
            day.carry()
        else:
            day.send()
    return text(roster(hosts, "clear") + day.lines + ["end"])
