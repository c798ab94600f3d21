#!/usr/bin/env python3
"""Runs mm_drive on random traces of 4 and 16 mutators, and compares it with a plain ideal heap.

    python3 bench/soak.py [--minutes M] [--seed S] [BINARY]

Each program of traces runs under each plan, with 1, 2, 4 and 16 workers. The replies must be those
of one order of all commands, the report and the map those of the ideal heap at its end. An order by
turns is tried first, then one is searched. `overlapping` counts how often an order leaves a mutator
where nothing can have stopped it. With `simulated` in place of BINARY the script makes the replies
itself, in random orders, and tries replies that it spoilt: so the search is tried.
"""
import argparse
import collections
import itertools
import pathlib
import random
import re
import subprocess
import sys
import tempfile
import time

BUILT = pathlib.Path(__file__).parent.parent / "crates/mm_drive/out/mm_drive"

# Of each plan, the kinds of blocks that stand after a full collection.
PLANS = {
    "nogc": "bump large", "marksweep": "cells large", "semispace": "bump large kept",
    "gencopy": "mature large kept", "immix": "immix large", "stickyimmix": "immix large",
}

WORKERS = [1, 2, 4, 16]

# Blocks, the largest of which have room for all that is reachable.
HEAPS = {4: [8, 16, 128], 16: [24, 64, 256]}

# A run that takes longer is refused.
SECONDS = 100

# Of each command, whether an argument is a register, a global or a number.
ARGUMENTS = {
    "new": "rnn", "get": "rrn", "put": "rnr", "read": "rn", "write": "rnn", "add": "rnn",
    "swap": "rnnn", "move": "rr", "drop": "r", "load": "rg", "share": "gr", "pin": "r",
    "unpin": "r", "gc": "", "meet": "",
}

WEIGHTS = {
    "new": 20, "get": 10, "put": 12, "read": 8, "write": 8, "add": 10, "swap": 6, "move": 4,
    "drop": 4, "load": 8, "share": 5, "pin": 1, "unpin": 2, "gc": 0.5,
}

# The register of the number to which all mutators add 1 now and then, and its cell.
TICKET = 15
TICKET_CELL = ("number", (1, 1), 0)

ANY = object()

# Each try of the search takes other orders first.
SPREADS = [0, 1, 4, 16]


# Traces.


def text_of(command):
    word, *numbers = command
    return " ".join([word] + [k.strip("n") + str(n) for k, n in zip(ARGUMENTS[word], numbers)])


def random_new(register):
    size = random.random()
    if size < 0.002:
        return ("new", register, random.randrange(9), random.randrange(2040, 9000))
    if size < 0.02:
        return ("new", register, random.randrange(300), random.randrange(1700))
    return ("new", register, random.randrange(5), random.randrange(9))


def random_command(words, weights, globals_):
    word = random.choices(words, weights)[0]
    register, other = random.randrange(TICKET), random.randrange(TICKET)
    number = random.choice([0, 1, random.getrandbits(64)])
    return {
        "new": random_new(register),
        "get": ("get", register, other, random.randrange(5)),
        "put": ("put", register, random.randrange(5), other),
        "read": ("read", register, random.randrange(9)),
        "write": ("write", register, random.randrange(9), random.getrandbits(64)),
        "add": ("add", register, random.randrange(9), number),
        "swap": ("swap", register, random.randrange(9), 0, random.getrandbits(64)),
        "move": ("move", register, other),
        "load": ("load", register, random.choice(globals_)),
        "share": ("share", random.choice(globals_), register),
        "gc": ("gc",),
    }.get(word, (word, register))


def random_part(length, words, globals_, has_ticket):
    """Commands up to a `meet`. Now and then all registers become nil."""
    weights = [WEIGHTS[word] for word in words]
    part = []
    while len(part) < length:
        part += [random_command(words, weights, globals_) for _ in range(random.randrange(1, 9))]
        if has_ticket:
            part.append(("add", TICKET, 0, 1))
        if random.random() < 0.02:
            part += [("drop", register) for register in range(TICKET)]
            part.append(("share", random.choice(globals_), 0))
    return part


def walk(register):
    """Reads what a register reaches. Register 15 is overwritten."""
    walked = [("read", register, 0)]
    for field in (0, 1):
        walked += [("get", TICKET, register, field), ("read", TICKET, 0)]
        walked += [("get", TICKET, TICKET, 0), ("read", TICKET, 0)]
    return walked


def random_program(mutators):
    """A trace for each mutator: parts between `meet`s, reading alone in the last but one part, and
    a collection at the end. In a third of the programs each mutator has a global of its own, and in
    a third none allocates between the `meet`s, so that nothing stops them."""
    kind = random.choice(["private", "shared", "adding"])
    length = random.choice([20, 100, 400]) if mutators == 4 else random.choice([20, 100])
    words = list(WEIGHTS)
    if kind == "adding":
        words = [word for word in words if word not in ("new", "gc")]
    traces = []
    for m in range(1, mutators + 1):
        globals_ = [m - 1] if kind == "private" else [1, 2, 3, 4]
        trace = [("new", TICKET, 0, 1), ("share", 0, TICKET)] if m == 1 else []
        if kind == "private":
            trace = [("new", TICKET, 0, 1)]
        trace += [random_new(register) for register in range(4)]
        trace += [("share", globals_[0], 0), ("meet",)]
        trace += [("load", TICKET, 0)] if kind != "private" else []
        for _ in range(3):
            trace += random_part(length, words, globals_, kind != "private") + [("meet",)]
        trace += itertools.chain.from_iterable(map(walk, range(TICKET)))
        for number in range(16 if m == 1 and kind != "private" else 0):
            trace += [("load", 14, number), *walk(14)]
        traces.append(trace + [("meet",)] + [("gc",)] * (m == 1))
    return kind, traces


# The ideal heap.


class Ideal:
    """Objects that never move and are never collected."""

    def __init__(self, mutators):
        self.registers = [[None] * 16 for _ in range(mutators)]
        self.globals = [None] * 16
        self.births = [0] * mutators
        self.objects = {}
        self.pinned = set()

    def step(self, m, command, printed):
        """The reply to a command. Only a refusal of `new` is taken as it is printed."""
        word, *numbers = command
        mine = self.registers[m - 1]
        if word == "new":
            return "full" if printed == "full" else self.create(m, *numbers)
        if word in ("get", "put", "read", "write", "add", "swap"):
            source = numbers[1] if word == "get" else numbers[0]
            if mine[source] is None:
                return "null"
            return self.access(mine, word, self.objects[mine[source]], numbers)
        if word in ("pin", "unpin"):
            return self.pin(mine[numbers[0]], word == "pin")
        if word == "load":
            mine[numbers[0]] = self.globals[numbers[1]]
            return reference(mine[numbers[0]])
        if word == "share":
            self.globals[numbers[0]] = mine[numbers[1]]
        elif word in ("move", "drop"):
            mine[numbers[0]] = mine[numbers[1]] if word == "move" else None
        return "ok"

    def create(self, m, register, references, numbers):
        self.births[m - 1] += 1
        name = (m, self.births[m - 1])
        self.objects[name] = ([None] * references, [0] * numbers)
        self.registers[m - 1][register] = name
        return "new %d.%d" % name

    def access(self, mine, word, record, numbers):
        index = numbers[2] if word == "get" else numbers[1]
        values = record[0] if word in ("get", "put") else record[1]
        if index >= len(values):
            return "range"
        old = values[index]
        if word == "get":
            mine[numbers[0]] = old
            return reference(old)
        if word == "read":
            return f"num {old}"
        if word == "add":
            values[index] = (old + numbers[2]) % 2**64
            return f"num {old}"
        if word == "swap":
            if old == numbers[2]:
                values[index] = numbers[3]
            return "yes" if old == numbers[2] else "no"
        values[index] = mine[numbers[2]] if word == "put" else numbers[2]
        return "ok"

    def pin(self, name, pins):
        if name is None:
            return "null"
        changes = (name in self.pinned) != pins
        (self.pinned.add if pins else self.pinned.discard)(name)
        return "yes" if changes else "no"

    def sizes(self, names):
        return {name: 3 + len(self.objects[name][0]) + len(self.objects[name][1]) for name in names}

    def reachable(self):
        """The sizes of the objects that registers and globals reach, by name."""
        found, left = set(), [*self.globals, *itertools.chain.from_iterable(self.registers)]
        while left:
            name = left.pop()
            if name is not None and name not in found:
                found.add(name)
                left += self.objects[name][0]
        return self.sizes(sorted(found))


def reference(name):
    return "nil" if name is None else "ref %d.%d" % name


def replay(order, traces, replies):
    """The ideal heap after these commands, of mutators in this order, or None if it replies
    otherwise."""
    ideal, at = Ideal(len(traces)), [0] * len(traces)
    for m in order:
        printed = replies[m - 1][at[m - 1]]
        if ideal.step(m, traces[m - 1][at[m - 1]], printed) != printed:
            return None
        at[m - 1] += 1
    return ideal


def by_turns(traces):
    """Between two `meet`s each mutator goes as far as it can, in rising order."""
    order, at = [], [0] * len(traces)
    while any(a < len(trace) for a, trace in zip(at, traces)):
        for m, trace in enumerate(traces):
            end = trace.index(("meet",), at[m]) + 1 if ("meet",) in trace[at[m]:] else len(trace)
            order += [m + 1] * (end - at[m])
            at[m] = end
    return order


# The search of an order.


Event = collections.namedtuple("Event", "at cell need unlike put stops")


class Refused(Exception):
    """The replies are those of no order."""


class Undecided(Exception):
    """The search took too long."""


def named(reply, word="ref"):
    """The name in a reply, or None for nil."""
    found = re.fullmatch(word + r" (\d+)\.(\d+)", reply)
    if not found and reply != "nil":
        raise Refused(reply)
    return (int(found[1]), int(found[2])) if found else None


def event_of(registers, command, reply):
    """The cell that a command reads or writes, what it must hold, what it must not, and what it
    then holds. The replies say what a mutator's registers hold, in any order of all commands."""
    word, *numbers = command
    source = registers[numbers[1] if word == "get" else numbers[0]] if numbers else None
    read = int(reply[4:]) if reply[:4] == "num " else None
    if word == "load":
        return ("global", numbers[1]), named(reply), ANY, ANY
    if word == "share":
        return ("global", numbers[0]), ANY, ANY, registers[numbers[1]]
    if reply in ("null", "range") or source is None:
        return None
    if word == "get":
        return ("field", source, numbers[2]), named(reply), ANY, ANY
    if word == "put":
        return ("field", source, numbers[1]), ANY, ANY, registers[numbers[2]]
    if word in ("pin", "unpin"):
        before = (word == "pin") != (reply == "yes")
        return ("pin", source), before, ANY, not before if reply == "yes" else ANY
    if word not in ("read", "write", "add", "swap"):
        return None
    cell = ("number", source, numbers[1])
    if word == "read":
        return cell, read, ANY, ANY
    if word == "write":
        return cell, ANY, ANY, numbers[2]
    if word == "add":
        return cell, read, ANY, None if read is None else (read + numbers[2]) % 2**64
    if reply == "yes":
        return cell, numbers[2], ANY, numbers[3]
    return cell, ANY, numbers[2], ANY


def events_of(trace, replies):
    """The events of a mutator, None for a `meet`."""
    registers, events, stops = [None] * 16, [], 0
    for at, (command, reply) in enumerate(zip(trace, replies)):
        word, *numbers = command
        event = event_of(registers, command, reply)
        stops += word in ("new", "gc")
        if word == "meet":
            events.append(None)
        elif event:
            events.append(Event(at, *event, stops))
        if word in ("new", "get", "load") and reply not in ("full", "null", "range"):
            registers[numbers[0]] = named(reply, "new" if word == "new" else "ref")
        elif word in ("move", "drop"):
            registers[numbers[0]] = registers[numbers[1]] if word == "move" else None
    return events


def tickets_of(events):
    """Of each place, the number that its mutator found in the ticket last, and the next."""
    found = [e.need if e and e.cell == TICKET_CELL and e.need is not ANY else None for e in events]
    last, after = [-1], [float("inf")]
    for number in found:
        last.append(last[-1] if number is None else number)
    for number in reversed(found):
        after.append(after[-1] if number is None else number)
    return list(zip(last, reversed(after)))


class Search:
    """An order of the events on cells that several mutators have events on."""

    def __init__(self, traces, replies):
        lists = [events_of(*both) for both in zip(traces, replies)]
        users = collections.defaultdict(set)
        for m, events in enumerate(lists):
            for event in filter(None, events):
                users[event.cell].add(m)
        self.lists = [
            [e for e in events if e is None or len(users[e.cell]) > 1] for events in lists
        ]
        self.place, self.value, self.done, self.state = [0] * len(lists), {}, [], 0
        self.random = random.Random(0)
        # How often a value of a cell is still read and written, and a cell used, by each and all.
        self.reads, self.writes, self.unlike = (collections.Counter() for _ in range(3))
        self.uses = collections.Counter()
        self.tickets = [tickets_of(events) for events in self.lists]
        # Where a value of a cell is read, and where it is written.
        self.readers, self.writers = (collections.defaultdict(list) for _ in range(2))
        for m, events in enumerate(self.lists):
            for place, event in enumerate(events):
                if event:
                    self.count(m, event, 1)
                    self.readers[event.cell, event.need].append((m, place))
                    self.writers[event.cell, event.put].append((m, place))

    def count(self, m, event, change):
        if event.need is not ANY:
            self.reads[event.cell, event.need] += change
        if event.unlike is not ANY:
            self.unlike[event.cell] += change
        if event.put is not ANY:
            self.writes[event.cell, event.put] += change
        self.uses[event.cell] += change
        self.uses[event.cell, m] += change

    def next_event(self, m):
        events = self.lists[m]
        return events[self.place[m]] if self.place[m] < len(events) else None

    def held(self, cell):
        return self.value.get(cell, {"number": 0, "pin": False}.get(cell[0]))

    def can(self, m, event):
        """The event's reply agrees, and it overwrites no value that is then read too late."""
        held = self.held(event.cell)
        if event.need not in (ANY, held) or event.unlike == held:
            return False
        others = self.reads[event.cell, held] - (event.need is not ANY)
        if event.put in (ANY, held) or not others:
            return True
        return bool(self.writes[event.cell, held]) and self.comes_again(m, event.cell, held)

    def comes_again(self, m, cell, value):
        """The value may be written again before another event reads it, as the tickets tell."""
        reads = [
            self.tickets[other][place][1] for other, place in self.readers[cell, value]
            if place >= self.place[other] + (other == m)
        ]
        return any(
            self.tickets[other][place][0] < min(reads)
            for other, place in self.writers[cell, value] if place >= self.place[other]
        )

    def is_safe(self, m, event):
        """No other event can stand in between that would not as well stand after this one."""
        cell = event.cell
        if event.put is ANY or self.uses[cell] == self.uses[cell, m]:
            return True
        if event.need is ANY or event.put == event.need:
            return False
        return not self.unlike[cell] and not self.writes[cell, event.need]

    def set(self, cell, value):
        self.state ^= hash((cell, self.held(cell))) ^ hash((cell, value))
        self.value[cell] = value

    def fire(self, m):
        event = self.lists[m][self.place[m]]
        self.place[m] += 1
        self.done.append((m, event, self.held(event.cell) if event else None))
        if event:
            self.count(m, event, -1)
            if event.put is not ANY:
                self.set(event.cell, event.put)

    def undo(self, length):
        while len(self.done) > length:
            m, event, held = self.done.pop()
            self.place[m] -= 1
            if event:
                self.count(m, event, 1)
                if event.put is not ANY:
                    self.set(event.cell, held)

    def left(self):
        return [m for m, events in enumerate(self.lists) if self.place[m] < len(events)]

    def settle(self):
        """Fires all safe events, and the `meet`s at which each stands."""
        fired = True
        while fired:
            fired = False
            for m in self.left():
                event = self.next_event(m)
                while event and self.can(m, event) and self.is_safe(m, event):
                    self.fire(m)
                    fired, event = True, self.next_event(m)
            waiting = self.left()
            if waiting and not any(self.next_event(m) for m in waiting):
                for m in waiting:
                    self.fire(m)
                fired = True

    def candidates(self, spread):
        """The mutators whose next event may stand here, first those with the next tickets, but
        for a random difference."""
        going = [m for m in self.left() if self.next_event(m) and self.can(m, self.next_event(m))]
        rank = {m: self.tickets[m][self.place[m]][1] + spread * self.random.random() for m in going}
        return sorted(going, key=rank.get)

    def run(self, spread, steps):
        """The events in an order, with their mutators."""
        choices, seen = [], set()
        for _ in range(steps):
            self.settle()
            if not self.left():
                return [(m, event) for m, event, _ in self.done]
            candidates = []
            if (*self.place, self.state) not in seen:
                seen.add((*self.place, self.state))
                candidates = self.candidates(spread)
            while not candidates:
                if not choices:
                    raise Refused("no order")
                length, candidates = choices.pop()
                self.undo(length)
            m, *others = candidates
            choices.append((len(self.done), others))
            self.fire(m)
        self.undo(0)
        return None


def search(traces, replies):
    """An order of the events that several mutators have on a cell, with their mutators."""
    found = Search(traces, replies)
    steps = 10_000 + 20 * sum(map(len, found.lists))
    for spread in SPREADS:
        events = found.run(spread, steps)
        if events is not None:
            return events
    raise Undecided("no order found in time")


def commands_of(events, traces):
    """The order of all commands for one of these events: each stands as late as it can."""
    order, at = [], [0] * len(traces)
    ends = [iter([k + 1 for k, c in enumerate(trace) if c[0] == "meet"]) for trace in traces]
    for m, event in events:
        end = event.at + 1 if event else next(ends[m])
        order += [m + 1] * (end - at[m])
        at[m] = end
    for m, trace in enumerate(traces):
        order += [m + 1] * (len(trace) - at[m])
    return order


def dependences(part):
    """Of each event, the events before it on its cell that can't stand after it."""
    befores, writer, readers = [], {}, collections.defaultdict(list)
    for number, (_, event) in enumerate(part):
        before = [writer[event.cell]] if event.cell in writer else []
        if event.put is not ANY:
            before += readers.pop(event.cell, [])
            writer[event.cell] = number
        else:
            readers[event.cell].append(number)
        befores.append(before)
    return befores


def overlapping_in(part):
    """Each mutator goes on as far as it can before the next one does. How often one is left that
    has made no object and called for no collection since its last event."""
    befores, done, left = dependences(part), set(), 0
    queues = collections.defaultdict(collections.deque)
    for number, (m, _) in enumerate(part):
        queues[m].append(number)
    while len(done) < len(part):
        for m, queue in sorted(queues.items()):
            last = None
            while queue and done.issuperset(befores[queue[0]]):
                last = queue.popleft()
                done.add(last)
            if queue and last is not None:
                left += part[queue[0]][1].stops == part[last][1].stops
    return left


def overlapping(events):
    """How often an order leaves a mutator where nothing can have stopped it."""
    parts = itertools.groupby(events, key=lambda both: both[1] is not None)
    return sum(overlapping_in(list(part)) for is_part, part in parts if is_part)


# Runs and what they print.


def words_of(plan, heap, workers, traces, folder):
    files = [f"{folder}/f{m}" for m in range(1, len(traces) + 1)]
    for file, trace in zip(files, traces):
        pathlib.Path(file).write_text("\n".join(["mmtrace 1", *map(text_of, trace), ""]))
    return ["--plan", plan, "--heap", str(heap), "--workers", str(workers), "--map", *files]


def split(text, traces):
    """The replies of each mutator, and the report and the map."""
    lines, replies, at = text.splitlines(), [], 0
    for m, trace in enumerate(traces):
        if lines[at:at + 1] != [f"mutator {m + 1}"]:
            raise Refused(f"no line of mutator {m + 1}")
        replies.append(lines[at + 1:at + 1 + len(trace)])
        at += 1 + len(trace)
    return replies, lines[at:]


def expect(found, wanted):
    if found != wanted:
        raise Refused(f"{found} in place of {wanted}")


def check_report(lines, plan, heap, workers, traces, replies, ideal):
    """The report and the map are of the ideal heap, and of a heap just after a full collection."""
    live = ideal.reachable()
    held = ideal.sizes(ideal.objects) if plan == "nogc" else live
    full = sum(printed.count("full") for printed in replies)
    expect(lines[:5], [
        f"plan {plan}", f"blocks {heap}", f"mutators {len(traces)}",
        f"commands {sum(map(len, traces))}", f"full {full}",
    ])
    nursery, collections_ = map(int, re.findall(r"\d+", lines[5]))
    expect((nursery == 0 or plan in ("gencopy", "stickyimmix"), collections_ > full), (True, True))
    expect(lines[6], f"live objects {len(live)} words {sum(live.values())}")
    expect(lines[7], f"held objects {len(held)} words {sum(held.values())}")
    kinds = {kind: int(count) for kind, count in re.findall(r"(\w+) (\d+)", lines[8])}
    expect(sum(kinds.values()), heap)
    expect({k for k in kinds if kinds[k]} - {"free", *PLANS[plan].split()}, set())
    if plan in ("semispace", "gencopy"):
        expect(kinds["bump"] + kinds["mature"] <= sum(live.values()) // 2048 + workers, True)
    check_map(lines[9:], live)


def check_map(lines, live):
    """The map has the objects in the order of their names, and none lies in another."""
    places = []
    for line, (name, size) in itertools.zip_longest(lines, live.items(), fillvalue=(None, 0)):
        found = re.fullmatch(r"map (\d+)\.(\d+) block (\d+) word (\d+) size (\d+)", str(line))
        m, birth, block, word, length = map(int, found.groups() if found else [0] * 5)
        expect(((m, birth), length), (name, size))
        expect(word == 0 if size > 2048 else word + size <= 4096, True)
        places.append((4096 * block + word, size))
    places.sort()
    for (first, size), (second, _) in itertools.pairwise(places):
        expect(first + size <= second, True)


class Soak:
    """Counts of programs, runs, replies `full`, searched orders and overlapping steps."""

    def __init__(self, binary):
        self.binary = binary
        names = ("programs", "runs", "full", "searched", "overlapping", "undecided", "refused")
        self.counts = collections.Counter(dict.fromkeys(names, 0))

    def ideal_of(self, kind, traces, replies):
        """The ideal heap at the end of an order that these replies allow."""
        ideal = replay(by_turns(traces), traces, replies)
        if ideal:
            return ideal
        if kind == "private":
            raise Refused("private traces reply otherwise")
        events = search(traces, replies)
        self.counts["searched"] += 1
        self.counts["overlapping"] += overlapping(events)
        ideal = replay(commands_of(events, traces), traces, replies)
        if not ideal:
            raise Refused("the order that was found replies otherwise")
        return ideal

    def run(self, kind, traces, plan, heap, workers, folder):
        words = words_of(plan, heap, workers, traces, folder)
        ran = subprocess.run(
            [self.binary, *words], capture_output=True, text=True, timeout=SECONDS, check=False
        )
        expect((ran.returncode, ran.stderr), (0, ""))
        replies, lines = split(ran.stdout, traces)
        full = sum(printed.count("full") for printed in replies)
        self.counts["full"] += full
        if full and heap == HEAPS[len(traces)][-1]:
            raise Refused("full in an ample heap")
        ideal = self.ideal_of(kind, traces, replies)
        check_report(lines, plan, heap, workers, traces, replies, ideal)

    def program(self, seed, folder):
        """Runs a program of random traces by each plan and number of workers."""
        random.seed(seed)
        mutators = random.choice([4, 16])
        kind, traces = random_program(mutators)
        self.counts["programs"] += 1
        for plan, workers in itertools.product(PLANS, WORKERS):
            heap = random.choice(HEAPS[mutators])
            self.counts["runs"] += 1
            try:
                self.run(kind, traces, plan, heap, workers, folder)
            except (Refused, Undecided, subprocess.TimeoutExpired) as why:
                self.counts["undecided" if isinstance(why, Undecided) else "refused"] += 1
                options = f"--plan {plan} --heap {heap} --workers {workers}"
                print(f"seed {seed}, {kind}, {mutators} mutators, {options}: {why}", flush=True)

    def simulated(self, seed, _):
        """Tries the search on replies in a random order, and on such with a number changed."""
        random.seed(seed)
        kind, traces = random_program(random.choice([4, 16]))
        replies = in_random_order(traces)
        self.counts["programs"] += 1
        for spoilt in (False, True):
            self.counts["runs"] += 1
            m = random.randrange(len(traces))
            numbers = [k for k, reply in enumerate(replies[m]) if reply[:3] == "num"]
            if spoilt:
                replies[m][random.choice(numbers)] = "num 77"
            try:
                self.ideal_of(kind, traces, replies)
                self.counts["spoilt allowed" if spoilt else "allowed"] += 1
            except Undecided:
                self.counts["undecided"] += 1
            except Refused as why:
                self.counts["spoilt refused" if spoilt else "refused"] += 1
                if not spoilt:
                    print(f"seed {seed}: {why}", flush=True)


def in_random_order(traces):
    """Replies of an ideal heap in an order in which mutators take turns of random lengths."""
    ideal, replies = Ideal(len(traces)), [[] for _ in traces]
    while True:
        left = [m for m, trace in enumerate(traces) if len(replies[m]) < len(trace)]
        if not left:
            return replies
        going = [m for m in left if traces[m][len(replies[m])] != ("meet",)]
        if not going:
            for m in left:
                replies[m].append("ok")
            continue
        m = random.choice(going)
        for command in traces[m][len(replies[m]):][:random.choice([1, 1, 2, 5, 50])]:
            if command == ("meet",):
                break
            replies[m].append(ideal.step(m + 1, command, ""))


def main():
    parser = argparse.ArgumentParser()
    parser.add_argument("--minutes", type=float, default=30)
    parser.add_argument("--seed", type=int, default=int(time.time()))
    parser.add_argument("binary", nargs="?", default=BUILT)
    options = parser.parse_args()
    soak, end = Soak(options.binary), time.monotonic() + 60 * options.minutes
    tried = soak.simulated if options.binary == "simulated" else soak.program
    print(f"seeds from {options.seed}", flush=True)
    with tempfile.TemporaryDirectory() as folder:
        for seed in itertools.count(options.seed):
            tried(seed, folder)
            if time.monotonic() > end:
                break
    print(", ".join(f"{name} {count}" for name, count in soak.counts.items()))
    sys.exit(1 if soak.counts["refused"] else 0)


if __name__ == "__main__":
    main()
