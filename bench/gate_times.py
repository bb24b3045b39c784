#!/usr/bin/env python3
"""gate_times.py PID LOG: looks at the provers and compilers below the process PID twice a second
until it is told to end (SIGTERM), and then prints a line for each crate and kind of task: from when
to when it ran, its processor time and the most memory that it held. What a process does after it
was last looked at is missed. A crate's seed is the check that its must-fail edits begin with, and
the one that ends them. Then it prints a line for each kind, and how many proofs and edits `rt ci`
says in LOG that it kept from an earlier run: only where that is none are these the times from
nothing."""
import os
import re
import signal
import sys
import time

PAUSE = 0.5
TICKS, PAGE = os.sysconf('SC_CLK_TCK'), os.sysconf('SC_PAGE_SIZE')
KINDS = ('proof', 'tests', 'seed', 'edits')
DONE = re.compile(r'done in this run: (\d+) of the (\d+) proofs.*?(?: and (\d+) of the (\d+) must-fail edits)?;')


def processes():
    """Each process's parent, start, processor time in seconds and memory in bytes."""
    found = {}
    for name in os.listdir('/proc'):
        if name.isdigit():
            try:
                with open('/proc/%s/stat' % name, 'rb') as file:
                    said = file.read().rpartition(b')')[2].split()
            except OSError:
                continue
            found[int(name)] = int(said[1]), int(said[19]), (int(said[11]) + int(said[12])) / TICKS, int(said[21]) * PAGE
    return found


def task(number):
    """The crate and the kind of task that a process names itself, or None."""
    try:
        with open('/proc/%d/cmdline' % number, 'rb') as file:
            words = file.read().decode(errors='replace').split('\0')
        folder = os.readlink('/proc/%d/cwd' % number)
    except OSError:
        return None
    if '--crate-name' not in words[:-1]:
        return None
    crate = words[words.index('--crate-name') + 1]
    if os.path.basename(folder).startswith('rt-edit-'):
        is_seed = any(words[at] == '--incremental' and it.endswith('/seed') for at, it in enumerate(words[1:]))
        return crate, 'seed' if is_seed else 'edits'
    return crate, 'tests' if '--test' in words else 'proof'


class Times:
    def __init__(self, top):
        self.top, self.began = top, time.time()
        self.tasks, self.spent, self.seen = {}, {}, {}

    def belongs(self, number, now):
        """The task of the nearest process above that names one, within what is below the top."""
        named = None
        while number in now and number != self.top:
            key = number, now[number][1]
            # (a process may name itself only once it has begun another program)
            if self.tasks.get(key) is None:
                self.tasks[key] = task(number)
            named = named or self.tasks[key]
            number = now[number][0]
        return named if number == self.top else None

    def look(self):
        now, at, held = processes(), time.time() - self.began, {}
        for number, (_, start, spent, memory) in now.items():
            found = self.belongs(number, now)
            if found:
                self.spent[number, start] = found, spent
                held[found] = held.get(found, 0) + memory
        for found, memory in held.items():
            first, _, most = self.seen.get(found, (at, at, 0))
            self.seen[found] = first, at, max(most, memory)

    def table(self):
        lines = ['%-14s %-6s %8s %8s %8s %10s %9s' % ('crate', 'task', 'from', 'to', 'minutes', 'processor', 'memory')]
        total, of_kind = 0, dict.fromkeys(KINDS, 0)
        for found in sorted(self.seen, key=lambda it: (self.seen[it][0], KINDS.index(it[1]))):
            first, last, most = self.seen[found]
            spent = sum(it for whose, it in self.spent.values() if whose == found)
            total += spent
            of_kind[found[1]] += spent
            numbers = first / 60, last / 60, (last - first) / 60, spent / 60, most / 2**30
            lines.append('%-14s %-6s %8.1f %8.1f %8.1f %10.1f %5.1f GiB' % (*found, *numbers))
        for kind, spent in of_kind.items():
            lines.append('%-14s %-6s %8s %8s %8s %10.1f' % ('all', kind, '', '', '', spent / 60))
        lines.append('%-14s %-6s %8s %8.1f %8s %10.1f' % ('all', '', '', (time.time() - self.began) / 60, '', total / 60))
        return '\n'.join(lines)


def kept(log):
    """How much `rt ci` kept from earlier runs, by its log, in a line."""
    try:
        with open(log, errors='replace') as file:
            text = file.read()
    except OSError:
        text = ''
    if 'every proof and must-fail edit was done in this run' in text:
        return 'kept from an earlier run: nothing, so these are the times from nothing'
    done = DONE.search(text)
    if not done:
        return 'kept from an earlier run: not known, since rt ci did not say'
    proofs, edits = (int(of or 0) - int(new or 0) for new, of in (done.groups()[:2], done.groups()[2:]))
    return 'kept from an earlier run: %d of %s proofs, %d of %s edits' % (proofs, done[2], edits, done[4] or 0)


def main():
    ended = []
    signal.signal(signal.SIGTERM, lambda *_: ended.append(True))
    signal.signal(signal.SIGINT, signal.SIG_IGN)
    times = Times(int(sys.argv[1]))
    while not ended and os.path.isdir('/proc/%d' % times.top):
        times.look()
        time.sleep(PAUSE)
    print(times.table())
    print(kept(sys.argv[2]))


if __name__ == '__main__':
    main()
