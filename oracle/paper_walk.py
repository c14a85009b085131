#!/usr/bin/env python3
"""The walk program once more, from document 01 alone: no line of it comes from the given files.

Held against oracle-walk by `compare`, it shows where document 01 and the given files say different
things. It is slow and plain on purpose.
"""
import re
import struct
import sys

WORDS, LISTS, ROWS, RECORD, TRAIL, VARS = 16384, 4096, 16384, 16384, 1024, 1024
NAN = 2143289344
LIMIT = 0x7D7FFFFF
FACTOR = 0x01800001

KEYS = {
    'start': 'vars', 'room': 'words clauses irred core mid local rows record', 'long': 'tier glue lits',
    'binary': 'lits', 'tier': 'ref tier', 'delete': 'ref', 'bump': 'ref', 'decay': '', 'locals': '',
    'mids': '', 'collect': '', 'units': '', 'simplify': '', 'empty': '', 'assess': 'lits',
    'implied': 'lit', 'literals': 'ref', 'view': 'from to', 'unit': 'lit',
    'assign': 'lit kind value level', 'undo': '', 'level': 'level', 'depth': 'var level',
    'poke': 'buffer at value', 'answers': 'on', 'show': '', 'dump': '', 'tails': '',
}


class Refused(Exception):
    pass


def refuse(wrong, number):
    if wrong:
        raise Refused(number)


def f32(bits):
    return struct.unpack('<f', struct.pack('<I', bits))[0]


def bits_of(number):
    """The bits of the f32 nearest to a sum or product of two f32, which a double holds well enough."""
    return struct.unpack('<I', struct.pack('<f', number))[0]


def plus(a, b):
    return bits_of(f32(a) + f32(b))


def times(a, b):
    return bits_of(f32(a) * f32(b))


def is_nan(bits):
    return bits & 0x7FFFFFFF > 0x7F800000


def text(numbers):
    return ','.join(map(str, numbers))


class Store:
    """Buffers and state. Lists 1 to 5 of `poke` are `lists[0]` to `lists[4]`."""

    def __init__(self):
        self.room = [WORDS] + [LISTS] * 5 + [ROWS, RECORD]
        self.words = [0] * WORDS
        self.lists = [[0] * LISTS for _ in range(5)]
        self.rows = [0] * ROWS
        self.row_counts = [0] * (2 * VARS)
        self.record = [0] * RECORD
        self.V = 0
        self.used = 0
        self.lens = [0] * 5
        self.recorded = 0
        self.counts = [0] * 4
        self.garbage = 0
        self.binary = 0
        self.bump = 0
        self.inverse = 0
        self.values = [0] * VARS
        self.kinds = [0] * VARS
        self.reasons = [0] * VARS
        self.levels = [0] * VARS
        self.trail = [0] * TRAIL
        self.trailed = 0
        self.level = 0

    # What is lent, and what it holds.

    def per_variable(self, V=None):
        V = self.V if V is None else V
        return V if 1 <= V <= VARS else VARS

    def row_room(self):
        return self.room[6] // (2 * self.V) if self.V else 0

    def row(self, code):
        room = self.row_room()
        return self.rows[code * room:code * room + min(room, self.row_counts[code])]

    def entries(self, which):
        return self.lists[which][:min(self.lens[which], self.room[1 + which])]

    def length(self, at):
        return self.words[at + 2]

    def lits(self, at):
        return self.words[at + 3:at + 3 + self.length(at)]

    def deleted(self, at):
        return self.words[at + 1] // 4 % 2 == 1

    def tier(self, at):
        return self.words[at + 1] % 4

    def glue(self, at):
        return self.words[at + 1] // 16 % 64

    def active(self, at):
        return self.words[at + 1] // 1024 % 2

    def live(self):
        return [at for at in self.entries(0) if not self.deleted(at)]

    def value(self, lit):
        """1 true, 0 false, 2 unassigned."""
        byte = self.values[lit // 2]
        return byte if byte > 1 else byte ^ lit % 2

    # Judging.

    def judge(self, words=False, tiers=False, rows=False, record=False, host=False, levels=False,
              state=True):
        refuse(not 1 <= self.V <= 65536, 1)
        refuse((rows or host or levels) and self.per_variable() != self.V, 1)
        if host:
            refuse(self.trailed > TRAIL, 1)
        if words:
            refuse(self.used > self.room[0] or self.lens[0] > self.room[1], 1)
        if tiers:
            refuse(any(self.lens[k] > self.room[1 + k] for k in (1, 2, 3, 4)), 1)
        if record:
            refuse(self.recorded > self.room[7], 1)
        if rows:
            refuse(max(self.row_counts[:2 * self.V]) > self.row_room(), 1)
        if state:
            refuse(not (self.bump < LIMIT), 2)
            refuse(not (0x3F800000 < self.inverse < 0x41800000), 2)
        if words:
            refuse(not self.words_pass(), 2)
        if tiers:
            refuse(not self.tiers_pass(), 2)
        if rows:
            refuse(not self.rows_pass(), 2)
        if host or levels:
            refuse(max(self.levels[:self.V]) > self.V, 3)
        if host:
            refuse(not self.host_passes(), 3)

    def words_pass(self):
        ends = 0
        for at in self.entries(0):
            if at < ends or at + 3 > self.used:
                return False
            ends = at + 3 + self.length(at)
            if ends > self.used:
                return False
        found = [0] * 4
        held = 0
        for at in self.live():
            lits = self.lits(at)
            if not (3 <= len(lits) <= self.V and max(lits) < 2 * self.V):
                return False
            if len({lit // 2 for lit in lits}) < len(lits):
                return False
            word = self.words[at + 1]
            if word // 8 % 2 or word >= 2048 or (word % 4 == 0 and self.glue(at)):
                return False
            if self.words[at] > LIMIT:
                return False
            found[word % 4] += 1
            held += len(lits) + 3
        return found == self.counts and self.garbage + held <= self.used

    def tiers_pass(self):
        live = self.live()
        inside = set()
        for at in live:
            inside.update(range(at, at + 3 + self.length(at)))
        for tier in range(4):
            entries = self.entries(1 + tier)
            if {at for at in live if self.tier(at) == tier} - set(entries):
                return False
            for entry in set(entries) - set(live):
                if entry + 3 > self.used or not self.deleted(entry) or entry + 1 in inside:
                    return False
        return True

    def rows_pass(self):
        pairs = {}
        for code in range(2 * self.V):
            for lit in self.row(code):
                if lit >= 2 * self.V or lit // 2 == code // 2:
                    return False
                pairs[code ^ 1, lit] = pairs.get((code ^ 1, lit), 0) + 1
        for a, b in pairs:
            if pairs[a, b] != pairs.get((b, a), 0):
                return False
        return sum(pairs.values()) == 2 * self.binary

    def host_passes(self):
        V = self.V
        if max(self.values[:V]) > 2 or max(self.kinds[:V]) > 4 or self.level > V:
            return False
        seen = set()
        live = None
        for lit in self.trail[:self.trailed]:
            var = lit // 2
            if lit >= 2 * V or var in seen or self.value(lit) != 1:
                return False
            seen.add(var)
            if self.kinds[var] not in (1, 2, 3) or self.levels[var] > self.level:
                return False
            reason = self.reasons[var]
            if self.kinds[var] == 2 and not (reason < 2 * V and self.value(reason) == 0):
                return False
            if self.kinds[var] == 3:
                live = set(self.live()) if live is None else live
                if reason not in live:
                    return False
                lits = self.lits(reason)
                if lits[0] != lit or any(self.value(other) for other in lits[1:]):
                    return False
        return all(self.values[var] == 2 or var in seen or self.kinds[var] == 4
                   for var in range(V))

    def refuse_clause(self, lits, least, most):
        wrong = not least <= len(lits) <= most
        wrong = wrong or any(lit >= 2 * self.V for lit in lits)
        refuse(wrong or len({lit // 2 for lit in lits}) < len(lits), 4)

    # Finished parts, and their room.

    def finish(self, words=None, lists={}, rows={}, lines=(), trail=None):
        """All rooms first (11), then everything written; what is given up becomes 0."""
        refuse(words is not None and len(words) > self.room[0], 11)
        refuse(any(len(new) > self.room[1 + which] for which, new in lists.items()), 11)
        refuse(any(len(new) > self.row_room() for new in rows.values()), 11)
        flat = [word for line in lines for word in line]
        refuse(flat and self.recorded + len(flat) > self.room[7], 11)

        def lay(buffer, start, used, new):
            for place in range(max(used, len(new))):
                buffer[start + place] = new[place] if place < len(new) else 0
        if words is not None:
            lay(self.words, 0, self.used, words)
            self.used = len(words)
        for which, new in lists.items():
            lay(self.lists[which], 0, self.lens[which], new)
            self.lens[which] = len(new)
        for code, new in rows.items():
            lay(self.rows, code * self.row_room(), self.row_counts[code], new)
            self.row_counts[code] = len(new)
        for word in flat:
            self.record[self.recorded] = word
            self.recorded += 1
        if trail is not None:
            lay(self.trail, 0, self.trailed, trail)
            self.trailed = len(trail)

    # The calls.

    def start(self, V):
        refuse(not 1 <= V <= 65536 or self.per_variable(V) != V, 1)
        self.words[:self.room[0]] = [0] * self.room[0]
        for which in range(5):
            self.lists[which][:self.room[1 + which]] = [0] * self.room[1 + which]
        self.rows[:self.room[6]] = [0] * self.room[6]
        self.row_counts[:2 * V] = [0] * (2 * V)
        self.record[:self.room[7]] = [0] * self.room[7]
        self.V, self.used, self.lens, self.recorded = V, 0, [0] * 5, 0
        self.counts, self.garbage, self.binary = [0] * 4, 0, 0
        self.bump, self.inverse = bits_of(1.0), bits_of(2.0)

    def add_long(self, tier, glue, lits):
        self.judge(words=True, tiers=True)
        self.refuse_clause(lits, 3, self.V)
        refuse(tier > 3 or tier == 0 and glue > 0, 5)
        at = self.used
        words = self.words[:at] + [0, tier + 16 * min(glue, 63), len(lits)] + lits
        self.finish(words=words, lists={0: self.entries(0) + [at],
                                        1 + tier: self.entries(1 + tier) + [at]})
        self.counts[tier] += 1
        return at

    def add_binary(self, lits):
        self.judge(rows=True)
        self.refuse_clause(lits, 2, 2)
        a, b = lits
        self.finish(rows={a ^ 1: self.row(a ^ 1) + [b], b ^ 1: self.row(b ^ 1) + [a]})
        self.binary += 1

    def implied(self, lit):
        self.judge(rows=True)
        refuse(lit >= 2 * self.V, 4)
        return self.row(lit)

    def literals(self, at):
        self.judge(words=True)
        refuse(at not in self.live(), 6)
        return self.lits(at)

    def change_tier(self, at, tier):
        """The lists and counts after a change of tier; nothing for an equal tier."""
        old = self.tier(at)
        if old == tier:
            return
        self.finish(lists={1 + tier: self.entries(1 + tier) + [at]})
        self.words[at + 1] += tier - old
        self.counts[old] -= 1
        self.counts[tier] += 1

    def set_tier(self, at, tier):
        self.judge(words=True, tiers=True)
        refuse(tier > 3, 5)
        refuse(at not in self.live(), 6)
        refuse(tier != self.tier(at) and 0 in (tier, self.tier(at)), 7)
        self.change_tier(at, tier)

    def asserting(self, at):
        first = self.lits(at)[0]
        var = first // 2
        return self.value(first) == 1 and self.kinds[var] == 3 and self.reasons[var] == at

    def strike(self, at):
        """Deleted bit, count and garbage."""
        self.words[at + 1] += 4
        self.counts[self.tier(at)] -= 1
        self.garbage += self.length(at) + 3

    def delete(self, at):
        self.judge(words=True, tiers=True, record=True, host=True)
        refuse(at not in self.live(), 6)
        refuse(self.tier(at) == 0, 7)
        refuse(self.asserting(at), 8)
        lits = self.lits(at)
        self.finish(lines=[[4, len(lits)] + lits])
        self.strike(at)
        return True

    def number_of_levels(self, lits):
        return len({self.levels[lit // 2] for lit in lits})

    @staticmethod
    def tier_by_glue(glue):
        return 1 if glue <= 2 else 2 if glue <= 6 else 3

    def rescale(self):
        live = self.live()
        for at in live:
            self.words[at] = times(self.words[at], FACTOR)
        self.bump = times(self.bump, FACTOR)
        self.finish(lists={0: live})

    def bump_clause(self, at):
        self.judge(words=True, tiers=True, levels=True)
        refuse(at not in self.live(), 6)
        glue = self.number_of_levels(self.lits(at))
        if glue < self.glue(at):
            self.change_tier(at, self.tier_by_glue(glue))
            self.words[at + 1] += 16 * (glue - self.glue(at))
        if not self.active(at):
            self.words[at + 1] += 1024
        self.words[at] = plus(self.words[at], self.bump)
        if self.words[at] > LIMIT:
            self.rescale()

    def decay(self):
        self.judge(words=True, tiers=True)
        self.bump = times(self.bump, self.inverse)
        if self.bump >= LIMIT:
            self.rescale()

    def of_tier(self, tier):
        """The tier's list without stale and repeated entries, the first of equals staying."""
        found = []
        live = set(self.live())
        seen = set()
        for at in self.entries(1 + tier):
            if at in live and self.tier(at) == tier and at not in seen:
                seen.add(at)
                found.append(at)
        return found

    def locals(self):
        self.judge(words=True, tiers=True, record=True, host=True)
        order = sorted(self.of_tier(3), key=lambda at: (f32(self.words[at]), at))
        gone = [at for at in order if not self.asserting(at)][:len(order) // 2]
        gone_set = set(gone)
        lines = [[4, self.length(at)] + self.lits(at) for at in gone]
        self.finish(lists={4: [at for at in order if at not in gone_set]}, lines=lines)
        for at in gone:
            self.strike(at)
        return bool(gone)

    def mids(self):
        self.judge(words=True, tiers=True)
        mids = self.of_tier(2)
        moved = [at for at in mids if not self.active(at)]
        stay = [at for at in mids if self.active(at)]
        self.finish(lists={3: stay, 4: self.entries(4) + moved})
        for at in moved:
            self.words[at + 1] += 1
        for at in stay:
            self.words[at + 1] -= 1024
        self.counts[2] -= len(moved)
        self.counts[3] += len(moved)

    def collect(self):
        self.judge(words=True, tiers=True, host=True)
        if self.garbage * 2 <= self.used:
            return False
        words, new = [], {}
        lists = {which: [] for which in range(5)}
        for at in self.live():
            new[at] = len(words)
            lists[0].append(len(words))
            lists[1 + self.tier(at)].append(len(words))
            words += self.words[at:at + 3] + self.lits(at)
        self.finish(words=words, lists=lists)
        for lit in self.trail[:self.trailed]:
            if self.kinds[lit // 2] == 3:
                self.reasons[lit // 2] = new[self.reasons[lit // 2]]
        self.garbage = 0
        return True

    def units(self):
        self.judge(words=True, record=True, host=True)
        if self.level > 0:
            return False
        trail = self.trail[:self.trailed]
        lines = []
        for lit in trail:
            var = lit // 2
            if self.kinds[var] == 2:
                lines.append([1, 2, lit, self.reasons[var]])
            if self.kinds[var] == 3:
                rest = self.lits(self.reasons[var])[1:]
                lines.append([1, 1 + len(rest), lit] + rest)
        self.finish(lines=lines, trail=[])
        for lit in trail:
            self.kinds[lit // 2] = 4
            self.reasons[lit // 2] = 0
        return bool(trail)

    def lacks(self, lits):
        values = [self.value(lit) for lit in lits]
        return 1 not in values and values.count(2) < 2

    def simplify(self):
        self.judge(words=True, tiers=True, rows=True, record=True, host=True)
        refuse(self.level > 0 or self.trailed > 0, 9)
        refuse(any(self.lacks(self.lits(at)) for at in self.live()), 10)
        refuse(any(self.lacks([code ^ 1, lit])
                   for code in range(2 * self.V) for lit in self.row(code)), 10)
        lines, rows = [], {}
        for code in range(2 * self.V):
            row = self.row(code)
            keep = []
            for lit in row:
                if self.value(code) == 2 and self.value(lit) == 2:
                    keep.append(lit)
                elif code ^ 1 < lit:
                    lines.append([5, 2, code ^ 1, lit])
            rows[code] = keep
        stays, struck, shorter = [], [], []
        for at in self.live():
            lits = self.lits(at)
            values = [self.value(lit) for lit in lits]
            redundant = self.tier(at) != 0
            whole = [len(lits)] + lits
            if 1 in values:
                lines.append([4 if redundant else 5] + whole)
                struck.append(at)
            elif 0 in values:
                left = [lit for lit in lits if self.value(lit) == 2]
                kind = 3 if redundant and len(left) > 2 else 2
                lines.append([kind, len(left)] + left)
                lines.append([4 if redundant else 6] + whole)
                if len(left) == 2:
                    a, b = left
                    rows[a ^ 1] = rows[a ^ 1] + [b]
                    rows[b ^ 1] = rows[b ^ 1] + [a]
                    struck.append(at)
                else:
                    shorter.append((at, left))
                    stays.append(at)
            else:
                stays.append(at)
        self.finish(lists={0: stays}, rows=rows, lines=lines)
        self.binary = sum(map(len, rows.values())) // 2
        for at in struck:
            self.strike(at)
        for at, left in shorter:
            self.words[at + 2] = len(left)
            self.words[at + 3:at + 3 + len(left)] = left
        return True

    def empty(self):
        self.judge(record=True)
        self.record[:self.recorded] = [0] * self.recorded
        self.recorded = 0

    def assess(self, lits):
        self.judge(levels=True, state=False)
        self.refuse_clause(lits, 1, self.V)
        glue = self.number_of_levels(lits) - 1
        return self.tier_by_glue(glue), min(glue, 63)

    # The host.

    def assign(self, lit, kind, value, level):
        var = lit // 2
        refuse(var >= min(self.V, VARS) or self.values[var] != 2 or kind > 255, 4)
        refuse(self.trailed >= TRAIL, 4)
        self.values[var] = 1 - lit % 2
        self.kinds[var], self.reasons[var], self.levels[var] = kind, value, level
        self.trail[self.trailed] = lit
        self.trailed += 1

    def undo(self):
        refuse(not 1 <= self.trailed <= TRAIL, 4)
        var = self.trail[self.trailed - 1] // 2
        refuse(var >= self.per_variable(), 4)
        self.trailed -= 1
        self.trail[self.trailed] = 0
        self.values[var] = 2

    def poke(self, buffer, at, value):
        V = self.per_variable()
        places = {0: (self.words, self.room[0]), 6: (self.rows, self.room[6]),
                  7: (self.row_counts, 2 * V), 8: (self.record, self.room[7]), 9: (self.values, V),
                  10: (self.kinds, V), 11: (self.reasons, V), 12: (self.levels, V),
                  13: (self.trail, TRAIL)}
        for which in range(5):
            places[1 + which] = self.lists[which], self.room[1 + which]
        if buffer in places:
            numbers, room = places[buffer]
            refuse(at >= room or buffer in (9, 10) and value > 255, 4)
            numbers[at] = value
            return
        refuse(buffer != 14 or at > 16, 4)
        if at in (14, 15) and is_nan(value):
            value = NAN
        if 2 <= at <= 6:
            self.lens[at - 2] = value
        elif 8 <= at <= 11:
            self.counts[at - 8] = value
        else:
            name = {0: 'V', 1: 'used', 7: 'recorded', 12: 'garbage', 13: 'binary', 14: 'bump',
                    15: 'inverse', 16: 'trailed'}[at]
            setattr(self, name, value)

    # Printing.

    def show(self):
        out = ['used=%d garbage=%d live=%d binary=%d count0=%d count1=%d count2=%d count3=%d record=%d'
               % (self.used, self.garbage, sum(self.counts), self.binary, *self.counts, self.recorded)]
        end = min(self.recorded, self.room[7])
        at = 0
        while at < end:
            length = self.record[at + 1] if at + 1 < end else 0
            out.append('kind=%d lits=%s' % (self.record[at], text(self.record[at + 2:min(end, at + 2 + length)])))
            at += 2 + length
        return out

    def rows_seen(self):
        return 2 * self.per_variable() if self.V else 0

    def dump(self):
        V = self.per_variable() if self.V else 0
        out = ['state vars=%d words=%d clauses=%d irred=%d core=%d mid=%d local=%d record=%d count0=%d '
               'count1=%d count2=%d count3=%d garbage=%d binary=%d bump=%d inverse=%d'
               % (self.V, self.used, *self.lens, self.recorded, *self.counts, self.garbage,
                  self.binary, self.bump, self.inverse)]
        out.append('words=' + text(self.words[:min(self.used, self.room[0])]))
        for which, name in enumerate('clauses irred core mid local'.split()):
            out.append(name + '=' + text(self.entries(which)))
        for code in range(self.rows_seen()):
            if self.row_counts[code]:
                out.append('row=%d lits=%s' % (code, text(self.row(code))))
        out.append('record=' + text(self.record[:min(self.recorded, self.room[7])]))
        for name, numbers in (('values', self.values), ('kinds', self.kinds),
                              ('reasons', self.reasons), ('levels', self.levels)):
            out.append(name + '=' + text(numbers[:V]))
        out.append('trail=' + text(self.trail[:self.trailed]))
        out.append('level=%d' % self.level)
        return out

    def tails(self):
        def behind(numbers, used, room):
            behind = numbers[used:room]
            return len(behind) - behind.count(0)
        lists = [behind(self.lists[k], self.lens[k], self.room[1 + k]) for k in range(5)]
        rows = behind(self.rows, 0, self.room[6])
        for code in range(self.rows_seen()):
            if self.row_counts[code]:
                rows -= behind(self.row(code), 0, ROWS)
        return ['op=tails words=%d clauses=%d irred=%d core=%d mid=%d local=%d rows=%d record=%d trail=%d'
                % (behind(self.words, self.used, self.room[0]), *lists, rows,
                   behind(self.record, self.recorded, self.room[7]),
                   behind(self.trail, self.trailed, TRAIL))]

    def view(self, start, end):
        refuse(start > end or end > self.room[0], 4)
        words = self.words[start:end]
        lits = []
        if len(words) < 3:
            words = [0, 0, 0]
        else:
            lits = words[3:3 + words[2]]
        flags = words[1]
        return ['op=view activity=%d tier=%d deleted=%d mark=%d glue=%d active=%d length=%d lits=%s'
                % (NAN if is_nan(words[0]) else words[0], flags % 4, flags // 4 % 2, flags // 8 % 2,
                   flags // 16 % 64, flags // 1024 % 2, words[2], text(lits))]


NUMBER = re.compile(rb'[0-9]{1,10}\Z')


def number(word):
    if not NUMBER.match(word) or int(word) >= 1 << 32:
        raise ValueError
    return int(word)


def read(line):
    """The op's name and its values; ValueError where the line is unreadable."""
    words = line.split(b' ')
    name = words[0][3:].decode('ascii', 'replace')
    if not words[0].startswith(b'op=') or name not in KEYS:
        raise ValueError
    keys = KEYS[name].split()
    if len(words) != 1 + len(keys):
        raise ValueError
    values = []
    for key, word in zip(keys, words[1:]):
        if not word.startswith(key.encode() + b'='):
            raise ValueError
        word = word[len(key) + 1:]
        if key == 'lits':
            parts = word.split(b',') if word else []
            if len(parts) > 1024:
                raise ValueError
            values.append([number(part) for part in parts])
        else:
            values.append(number(word))
    if name == 'answers' and values[0] > 1:
        raise ValueError
    return name, values


def main():
    given = sys.stdin.buffer.read()[:65536]
    lines = given.split(b'\n')
    if lines[-1] == b'':
        lines.pop()
    store = Store()
    answers = False
    out = []
    for line in lines:
        try:
            name, v = read(line)
        except ValueError:
            out.append('op=none answer=99')
            continue
        more = ''
        prints = None
        try:
            if name == 'start':
                store.start(v[0])
                store.values = [2] * VARS
                store.kinds, store.reasons, store.levels = [0] * VARS, [0] * VARS, [0] * VARS
                store.trail, store.trailed, store.level = [0] * TRAIL, 0, 0
            elif name == 'room':
                most = [WORDS] + [LISTS] * 5 + [ROWS, RECORD]
                refuse(any(a > b for a, b in zip(v, most)), 1)
                store.room = v
            elif name == 'long':
                more = ' ref=%d' % store.add_long(*v)
            elif name in ('delete', 'locals', 'collect', 'simplify'):
                more = ' rebuild=%d' % getattr(store, name)(*v)
            elif name == 'units':
                more = ' new=%d' % store.units()
            elif name == 'assess':
                prints = ['op=assess tier=%d glue=%d' % store.assess(v[0])]
            elif name in ('implied', 'literals'):
                prints = ['op=%s lits=%s' % (name, text(getattr(store, name)(v[0])))]
            elif name in ('view', 'show', 'dump', 'tails'):
                prints = getattr(store, name)(*v)
            elif name == 'unit':
                store.assign(v[0], 1, 0, store.level)
            elif name == 'level':
                store.level = v[0]
            elif name == 'depth':
                refuse(v[0] >= min(store.V, VARS), 4)
                store.levels[v[0]] = v[1]
            elif name == 'answers':
                answers = v[0] == 1
            else:
                call = {'binary': store.add_binary, 'tier': store.set_tier, 'bump': store.bump_clause}
                call.get(name, getattr(store, name, None))(*v)
        except Refused as number_given:
            out.append('op=%s answer=%s' % (name, number_given))
            continue
        if prints is not None:
            out.extend(prints)
        elif answers:
            out.append('op=%s answer=0%s' % (name, more))
    sys.stdout.write(''.join(line + '\n' for line in out))


if __name__ == '__main__':
    main()
