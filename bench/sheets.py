#!/usr/bin/env python3
"""sheets.py FOLDER: writes the benchmark sheets. None of their runs ends, so that a trace of 65,536 bytes always fills.

shop       a workshop: 24 benches, 8 suppliers, a foreman and main, 20 crates, 5 queues; eleven of the operations
mixed      a workshop whose goods-in queue holds crates in front and benches behind; waking the first process walks past the crates
ties       1,024 processes that hold 10 ticks each: groups of 1,024 equal notices
tiewalk    short holds in front of a large group of equal notices
tieprior   every process schedules itself prior, in front of hundreds of equal notices
spread     1,024 processes whose holds are different primes: times spread wide
tiny       two processes that only hold
accum      eight processes; five of six steps are accum
sets       one process that moves 48 links among 4 sets
crowd      one process that moves the first of a long queue to the end of the next: queues of 300, 400 and 500 links
crowd-430  the same with three queues of 430 links
NAME-P     ties and spread with P processes
"""
import struct
import sys
from pathlib import Path

OUT, FOLLOW, PRECEDE, INTO, HOLD, WAIT, CANCEL, ACTIVATE, REACTIVATE, IF_EMPTY, ACCUM = 1, 2, 3, 4, 6, 8, 9, 10, 11, 12, 13
CURRENT = 65536


def first(head):
    """The operand that stands for the first member of a head; in CANCEL, ACTIVATE and REACTIVATE for the first that is a process."""
    return CURRENT + head


class Records:
    """Records with labels. A record goes on to the following one unless `to` names another; `go` is the record that 12 may go to."""

    def __init__(self):
        self.rows, self.labels = [], {}

    def add(self, operation, clause=0, x=0, y=0, t=0, to=None, label=None, go=None):
        self.rows.append((operation, clause, x, y, t, to, go))
        if label:
            self.labels[label] = len(self.rows)
        return len(self.rows)

    def packed(self):
        packed = []
        for number, (operation, clause, x, y, t, to, go) in enumerate(self.rows, 1):
            following = self.labels[to] if to else number + 1
            packed.append(struct.pack('<IBBHIIq', following, operation, clause, 0, x, self.labels[go] if go else y, t))
        return packed


def sheet(heads, links, starts, records):
    packed = records.packed()
    return struct.pack('<4I', heads, len(starts), links, len(packed)) + struct.pack('<%dI' % len(starts), *starts) + b''.join(packed)


def shop(benches=24, suppliers=8, crates=20):
    idle, goods_in, free, in_work, waiting = 1, 2, 3, 4, 5
    bench, supplier = 7, 7 + benches
    foreman, crate = supplier + suppliers, supplier + suppliers + 1
    r = Records()
    for k in range(crates):
        r.add(INTO, x=crate + k, y=goods_in if k % 4 == 0 and k else free)
    for p in range(benches):
        r.add(ACTIVATE, 2, x=bench + p, t=p % 3)
    for p in range(suppliers):
        r.add(ACTIVATE, 2, x=supplier + p, t=p % 5)
    r.add(ACTIVATE, 2, x=foreman, t=4)
    r.add(HOLD, t=40, label='main')
    r.add(ACCUM, x=2, to='main')
    at_bench = []
    for ticks in (7, 11, 13):
        name = 'bench%d' % ticks
        at_bench.append(r.add(IF_EMPTY, x=goods_in, go=name + 'w', label=name))
        r.add(INTO, x=first(goods_in), y=in_work)
        r.add(ACCUM, x=1, t=1)
        r.add(HOLD, t=ticks)
        r.add(ACCUM, x=1, t=-1)
        r.add(IF_EMPTY, x=in_work, go=name)
        r.add(INTO, x=first(in_work), y=free)
        r.add(IF_EMPTY, x=waiting, go=name)
        r.add(ACTIVATE, 0, x=first(waiting), to=name)
        r.add(WAIT, y=idle, label=name + 'w')
        r.add(OUT, x=CURRENT, to=name)
    at_supplier = []
    for ticks in (3, 5):
        name = 'supplier%d' % ticks
        at_supplier.append(r.add(IF_EMPTY, x=free, go=name + 'w', label=name))
        r.add(INTO, x=first(free), y=goods_in)
        r.add(IF_EMPTY, x=idle, go=name + 'h')
        r.add(ACTIVATE, 0, x=first(idle))
        r.add(HOLD, t=ticks, label=name + 'h', to=name)
        r.add(WAIT, y=waiting, label=name + 'w')
        r.add(OUT, x=CURRENT, to=name)
    at_foreman = r.add(IF_EMPTY, x=free, go='foremanh', label='foreman')
    r.add(FOLLOW, x=first(free), y=goods_in)
    r.add(PRECEDE, x=first(goods_in), y=goods_in)
    r.add(REACTIVATE, 2, x=supplier, t=2)
    r.add(CANCEL, x=supplier + 1)
    r.add(ACTIVATE, 1, x=supplier + 1)
    r.add(REACTIVATE, 4, x=supplier + 3, t=3)
    r.add(HOLD, t=4, label='foremanh', to='foreman')
    starts = [1] + [at_bench[p % 3] for p in range(benches)] + [at_supplier[p % 2] for p in range(suppliers)] + [at_foreman]
    return sheet(5, crates, starts, r)


def mixed(benches=24, suppliers=8, crates=40):
    """A supplier puts a crate at the front of goods_in, holds, and wakes a bench, which waits at the end and so finds a crate."""
    goods_in, free, in_work, bench, supplier = 1, 2, 3, 5, 5 + benches
    r = Records()
    for k in range(crates):
        r.add(INTO, x=supplier + suppliers + k, y=goods_in if k < 2 else free)
    for p in range(benches + suppliers):
        r.add(ACTIVATE, 2, x=bench + p, t=p % 5)
    r.add(HOLD, t=40, label='main', to='main')
    for ticks in (7, 11, 13):
        name = 'bench%d' % ticks
        r.add(WAIT, y=goods_in, label=name)
        r.add(OUT, x=CURRENT)
        r.add(INTO, x=first(goods_in), y=in_work)
        r.add(HOLD, t=ticks)
        r.add(INTO, x=first(in_work), y=free, to=name)
    for ticks in (4, 5):
        name = 'supplier%d' % ticks
        r.add(IF_EMPTY, x=free, go=name + 'h', label=name)
        r.add(FOLLOW, x=first(free), y=goods_in)
        r.add(HOLD, t=ticks)
        r.add(ACTIVATE, x=first(goods_in))
        r.add(HOLD, t=ticks, label=name + 'h', to=name)
    bodies = ['bench%d' % (7, 11, 13)[p % 3] for p in range(benches)] + ['supplier%d' % (4 + p % 2) for p in range(suppliers)]
    return sheet(3, crates, [1] + [r.labels[name] for name in bodies], r)


def everybody(processes, labels, r):
    """Main activates the others, then goes where its label says; each process begins at its own label."""
    starting = Records()
    for p in range(2, processes + 1):
        starting.add(ACTIVATE, 2, x=p, to=labels[0] if p == processes else None)
    shift = len(starting.rows)
    starting.rows += r.rows
    starting.labels = {label: number + shift for label, number in r.labels.items()}
    starts = [1 if shift else starting.labels[labels[0]]] + [starting.labels[label] for label in labels[1:]]
    return sheet(0, 0, starts, starting)


def holding(ticks):
    """A process for each entry, which holds so long again and again."""
    r = Records()
    for t in dict.fromkeys(ticks):
        r.add(HOLD, t=t, label=str(t), to=str(t))
    return everybody(len(ticks), [str(t) for t in ticks], r)


def primes(count):
    found, k = [], 2
    while len(found) < count:
        if all(k % d for d in range(2, int(k ** .5) + 1)):
            found.append(k)
        k += 1
    return found


def ties(processes=1024):
    return holding([10] * processes)


def tiewalk(processes=1024):
    return holding([1] * 8 + [1000] * (processes - 8))


def tieprior(processes=1024):
    r = Records()
    r.add(REACTIVATE, 4, x=CURRENT, t=10, label='again', to='again')
    return everybody(processes, ['again'] * processes, r)


def spread(processes=1024):
    different = min(processes, 2001 - processes)
    ticks = primes(different)
    return holding(ticks + ticks[different - (processes - different):] if processes > different else ticks)


def tiny():
    return holding([1, 2])


def accum(processes=8):
    r = Records()
    for p in range(processes):
        name, own, neighbour = 'p%d' % p, p + 1, (p + 1) % processes + 1
        r.add(ACCUM, x=own, t=3, label=name)
        for number, d in ((neighbour, 2), (own, -5), (neighbour, -2), (own, 2)):
            r.add(ACCUM, x=number, t=d)
        r.add(HOLD, t=1 + p % 3, to=name)
    return everybody(processes, ['p%d' % p for p in range(processes)], r)


def sets(heads=4, links=48):
    link = heads + 2
    r = Records()
    for k in range(links):
        r.add(INTO, x=link + k, y=1 + k % heads)
    r.add(HOLD, t=1, label='again')
    for k in range(12):
        r.add(PRECEDE, x=link + k, y=link + (k * 7 + 3) % links)
        r.add(FOLLOW, x=link + links - 1 - k, y=1 + k % heads)
        r.add(INTO, x=link + 2 * k, y=1 + (k + 1) % heads)
        r.add(IF_EMPTY, x=1 + k % heads, go='again')
        r.add(FOLLOW, x=first(1 + k % heads), y=link + 20 + k)
    for k in range(links):
        r.add(INTO, x=link + k, y=1 + k % heads, to='again' if k == links - 1 else None)
    return sheet(heads, links, [1], r)


def crowd(lengths=(300, 400, 500)):
    """The links enter their queues one by one; then every step enters a queue, but for a hold after each round."""
    heads, link = len(lengths), len(lengths) + 2
    r = Records()
    for head, length in enumerate(lengths, 1):
        for k in range(length):
            r.add(INTO, x=link + k, y=head)
        link += length
    r.add(HOLD, t=1, label='again')
    for k in range(10 * heads):
        r.add(INTO, x=first(1 + k % heads), y=1 + (k + 1) % heads, to='again' if k == 10 * heads - 1 else None)
    return sheet(heads, sum(lengths), [1], r)


def main():
    folder = Path(sys.argv[1])
    made = {make.__name__: make() for make in (shop, mixed, ties, tiewalk, tieprior, spread, tiny, accum, sets, crowd)}
    made.update({'%s-%d' % (make.__name__, p): make(p) for make in (ties, spread) for p in (2, 16, 128, 1024)})
    made['crowd-430'] = crowd((430, 430, 430))
    for name, content in made.items():
        (folder / (name + '.sheet')).write_bytes(content)


if __name__ == '__main__':
    main()
