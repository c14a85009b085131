#!/usr/bin/env python3
"""Writes one walk over the edges that document 01 names, longer than the 64 KiB that are read.

    python3 edges.py > WALK

Every op before the first start; V of 1 and 1,024; a trail, a clause, rows, lists, words and a record
exactly full and one short; every byte; numbers at and beyond their ends; keys missing, repeated,
swapped, unknown; each buffer and each field of the state damaged before every call; the P points that
a walk can show; a line of thousands of bytes; a last line that the 65,536th byte cuts.
"""
import sys

READ = 65536
WHOLE = dict(words=16384, clauses=4096, irred=4096, core=4096, mid=4096, local=4096, rows=16384,
             record=16384)
KEYS = {
    'start': ['vars'], 'room': list(WHOLE), 'long': ['tier', 'glue', 'lits'], 'binary': ['lits'],
    'tier': ['ref', 'tier'], 'delete': ['ref'], 'bump': ['ref'], 'decay': [], 'locals': [], 'mids': [],
    'collect': [], 'units': [], 'simplify': [], 'empty': [], 'assess': ['lits'], 'implied': ['lit'],
    'literals': ['ref'], 'view': ['from', 'to'], 'unit': ['lit'],
    'assign': ['lit', 'kind', 'value', 'level'], 'undo': [], 'level': ['level'],
    'depth': ['var', 'level'], 'poke': ['buffer', 'at', 'value'], 'answers': ['on'], 'show': [],
    'dump': [], 'tails': [],
}
CALLS = ['long tier=1 glue=1 lits=1,3,5', 'binary lits=1,3', 'tier ref=6 tier=2', 'bump ref=6', 'decay',
         'mids', 'assess lits=0,2', 'implied lit=1', 'literals ref=0', 'locals', 'delete ref=6', 'collect',
         'units', 'simplify', 'empty']

lines = []


def op(text):
    lines.append(('op=' + text).encode())


def ops(*texts):
    for text in texts:
        op(text)


def codes(numbers):
    return ','.join(str(number) for number in numbers)


def room(**less):
    op('room ' + ' '.join('%s=%d' % pair for pair in {**WHOLE, **less}.items()))


def long(tier, lits, glue=None):
    op('long tier=%d glue=%d lits=%s' % (tier, (0 if tier == 0 else 1) if glue is None else glue, codes(lits)))


def before_the_first_start():
    ops(*CALLS)
    ops('unit lit=0', 'assign lit=0 kind=1 value=0 level=0', 'depth var=0 level=0', 'undo', 'level level=1',
        'view from=0 to=4', 'show', 'tails', 'poke buffer=9 at=1023 value=0', 'poke buffer=7 at=2048 value=0')
    op('answers on=1')


def one_variable():
    ops('start vars=1', 'long tier=0 glue=0 lits=0', 'long tier=0 glue=0 lits=0,1,0', 'binary lits=0,1',
        'binary lits=0', 'assess lits=1', 'assess lits=2', 'assess lits=0,1', 'implied lit=1', 'implied lit=2',
        'level level=1', 'unit lit=1', 'collect', 'units', 'level level=2', 'collect', 'level level=0',
        'collect', 'undo', 'unit lit=2', 'unit lit=0', 'unit lit=1', 'units', 'simplify', 'locals', 'mids',
        'decay', 'dump', 'tails')
    ops('start vars=2', 'binary lits=3,0', 'long tier=0 glue=0 lits=0,2', 'implied lit=2', 'simplify', 'show')


def most_variables():
    ops('start vars=1025', 'start vars=65536', 'start vars=65537', 'start vars=1024')
    long(0, range(0, 2048, 2))
    long(3, [0] * 1025)
    long(3, [0] * 1024)
    long(1, [2047, 2045, 0])
    long(1, [2048, 2045, 0])
    for other in range(2, 20, 2):
        op('binary lits=%d,2046' % other)
    ops('implied lit=2047', 'implied lit=2', 'implied lit=2048')
    for var in range(66):
        op('depth var=%d level=%d' % (var, var))
    for many in (3, 4, 7, 8, 64, 65, 66):
        op('assess lits=' + codes(range(0, 2 * many, 2)))
    ops('depth var=1023 level=1024', 'depth var=1024 level=0', 'bump ref=0', 'bump ref=1027', 'view from=1027 to=1033')
    op('answers on=0')
    for var in range(1024):
        op('unit lit=%d' % (2 * var + var % 2))
    ops('answers on=1', 'unit lit=0', 'depth var=1023 level=1024', 'collect', 'level level=1024', 'collect', 'level level=0',
        'depth var=1023 level=0', 'collect', 'units', 'units', 'simplify', 'show', 'tails', 'start vars=3', 'tails')


def full_rooms():
    for less in (dict(words=12), dict(words=11), dict(clauses=2), dict(clauses=1), dict(irred=1), dict(irred=0),
                 dict(core=1), dict(core=0), dict(mid=1), dict(mid=0), dict(local=1), dict(local=0)):
        room(**less)
        op('start vars=4')
        for tier in ([0, 0], [1, 1], [2, 2], [3, 3])[{'irred': 0, 'core': 1, 'mid': 2}.get(next(iter(less)), 3)]:
            long(tier, [0, 2, 4])
        ops('tier ref=0 tier=1', 'tier ref=0 tier=2', 'tier ref=0 tier=3', 'mids', 'show')
    for rows in (6, 5, 12, 11, 13):
        room(rows=rows)
        ops('start vars=3', 'binary lits=0,2', 'binary lits=0,4', 'binary lits=0,2', 'implied lit=1', 'tails')
    for record in (5, 4, 0):
        room(record=record)
        op('start vars=4')
        for lits in ([0, 2, 4], [2, 4, 6]):
            long(3, lits)
        ops('delete ref=0', 'locals', 'delete ref=6', 'empty', 'delete ref=6', 'show')
    for record in (5, 4):
        room(record=record)
        ops('start vars=3', 'long tier=0 glue=0 lits=0,2,4', 'unit lit=3',
            'assign lit=5 kind=1 value=0 level=0', 'assign lit=0 kind=3 value=0 level=0', 'units', 'show')
    for record in (13, 12):
        room(record=record)
        ops('start vars=4', 'long tier=0 glue=0 lits=1,2,4', 'binary lits=0,6', 'unit lit=0', 'units', 'simplify', 'show')
    for record, rows in ((18, 16), (18, 15), (17, 16)):
        room(record=record, rows=rows)
        ops('start vars=4', 'long tier=0 glue=0 lits=1,2,4', 'long tier=0 glue=0 lits=1,2,6', 'unit lit=0', 'units',
            'simplify', 'show')
    room()


def every_byte():
    for byte in range(256):
        if byte != 10:
            lines.append(bytes([byte]))
            lines.append(b'op=decay' + bytes([byte]))
            lines.append(b'op=unit lit=' + bytes([byte]))
    op('dump')


def numbers():
    for number in ('0', '00', '0000000003', '00000000003', '4294967295', '4294967296', '9999999999', '10000000000',
                   '18446744073709551617', '', '+1', '-1', '1e3', '0x1', ' 1', '1 ', '1,', ',1', '1,1'):
        op('level level=' + number)
        op('assess lits=' + number)
    for op_name in ('bump', 'delete', 'literals'):
        op(op_name + ' ref=4294967295')
    ops('tier ref=0 tier=4294967295', 'tier ref=4294967295 tier=3', 'long tier=4294967295 glue=0 lits=0,2,4',
        'long tier=3 glue=4294967295 lits=0,2,4', 'view from=0 to=6', 'long tier=3 glue=64 lits=0,2,4294967295',
        'binary lits=0,4294967295', 'implied lit=4294967295', 'unit lit=4294967295',
        'assign lit=4294967295 kind=1 value=0 level=0', 'assign lit=0 kind=255 value=4294967295 level=4294967295',
        'assign lit=2 kind=256 value=0 level=0', 'depth var=4294967295 level=0', 'depth var=0 level=4294967295',
        'view from=4294967295 to=4294967295', 'view from=16384 to=16384', 'view from=16384 to=16385',
        'poke buffer=4294967295 at=0 value=0', 'poke buffer=0 at=4294967295 value=0',
        'poke buffer=14 at=4294967295 value=0', 'poke buffer=0 at=16383 value=4294967295', 'dump', 'tails')


def keys():
    op('start vars=3')
    for name, wanted in KEYS.items():
        words = ['%s=1' % key for key in wanted]
        for wrong in ([words[1:], words[:-1], words + words[-1:], words[::-1] if len(words) > 1 else ['x=1'],
                       [word[:-1] for word in words], [word.upper() for word in words]] if words else [['x'], [''], ['x=1']]):
            lines.append(' '.join(['op=' + name] + wrong).encode())
        lines.append(' '.join([name] + words).encode())
        lines.append(' '.join(words + ['op=' + name]).encode())
        lines.append(' '.join(['op=' + name.upper()] + words).encode())
    ops('', 'none', 'sta', 'starts vars=3')
    lines.extend([b'', b'=', b'op', b'op=', b'op==show', b' op=show', b'op=show ', b'op=show\r', b'op=show\t', b'op=show;op=show'])
    op('show')


def damage():
    places = [(0, 0, 4286578689), (0, 1, 8), (0, 1, 2048), (0, 2, 4), (0, 2, 2), (0, 3, 8), (0, 4, 0), (1, 0, 1), (1, 1, 0),
              (2, 0, 1), (3, 0, 6), (4, 0, 0), (5, 0, 13), (6, 2048, 6), (6, 2048, 1), (7, 1, 2), (7, 1, 2049), (8, 0, 9),
              (9, 0, 3), (9, 0, 1), (10, 0, 5), (11, 1, 6), (12, 2, 5), (13, 0, 8), (13, 0, 2)]
    places += [(14, at, value) for at, value in enumerate(
        [2, 16385, 4097, 4097, 4097, 4097, 4097, 16385, 2, 2, 1, 2, 13, 2, 2105540607, 1065353216, 1025])]
    places += [(14, 0, 65537), (14, 14, 2147483648), (14, 14, 2143289344), (14, 15, 1098907648), (14, 16, 5)]
    op('answers on=0')
    for buffer, at, value in places:
        ops('start vars=4')
        long(0, [0, 2, 4])
        long(3, [1, 3, 5, 7])
        ops('binary lits=0,6', 'unit lit=3', 'poke buffer=%d at=%d value=%d' % (buffer, at, value))
        ops(*(CALLS[:8] if (buffer + at) % 2 else CALLS[8:]))
        op('tails')
    op('answers on=1')


def refusals():
    room(mid=0, rows=6)
    ops('start vars=3', 'long tier=0 glue=0 lits=0,2,4', 'long tier=3 glue=3 lits=2,1,5', 'depth var=1 level=4', 'bump ref=6',
        'assess lits=0', 'delete ref=6', 'depth var=1 level=1', 'bump ref=1', 'tier ref=6 tier=4', 'tier ref=6 tier=2',
        'tier ref=6 tier=0', 'tier ref=0 tier=1', 'delete ref=0', 'delete ref=3', 'long tier=0 glue=1 lits=0,2,4',
        'poke buffer=0 at=7 value=131', 'depth var=2 level=2', 'poke buffer=14 at=0 value=3', 'bump ref=6', 'unit lit=0',
        'unit lit=4', 'assign lit=2 kind=3 value=6 level=0', 'delete ref=6', 'simplify', 'level level=1', 'simplify',
        'level level=0', 'undo', 'units', 'simplify', 'dump')
    room()


def points():
    ops('start vars=8', 'long tier=2 glue=3 lits=0,2,4', 'poke buffer=14 at=0 value=8', 'long tier=3 glue=64 lits=0,2,4',
        'depth var=0 level=4', 'depth var=1 level=4', 'depth var=2 level=7', 'assess lits=0,2,4', 'bump ref=0', 'dump')
    for second in ([0, 2, 4], [0, 2, 4, 6]):
        op('start vars=4')
        long(3, [0, 2, 4])
        long(3, second)
        ops('delete ref=6', 'collect', 'show')
    ops('start vars=3', 'long tier=3 glue=1 lits=0,2,4', 'poke buffer=0 at=0 value=2105540607', 'bump ref=0',
        'poke buffer=0 at=0 value=2105540607', 'poke buffer=14 at=14 value=2105540606', 'bump ref=0', 'dump',
        'poke buffer=14 at=14 value=2097152000', 'decay', 'decay', 'dump')
    op('start vars=7')
    for first in range(0, 10, 2):
        long(3, [first, 11, 13])
    for ref in (12, 18, 24):
        op('bump ref=%d' % ref)
    ops('unit lit=10', 'unit lit=12', 'assign lit=0 kind=3 value=0 level=0', 'assign lit=2 kind=3 value=6 level=0',
        'locals', 'show', 'dump')


def main():
    for part in (before_the_first_start, one_variable, most_variables, full_rooms, every_byte, numbers, keys, damage, refusals, points):
        before = sum(len(line) + 1 for line in lines)
        part()
        print(part.__name__, sum(len(line) + 1 for line in lines) - before, 'bytes', file=sys.stderr)
    ops('start vars=3', 'long tier=0 glue=0 lits=0,2,4')
    walk = b''.join(line + b'\n' for line in lines)
    last = b'op=view from=0 to=6'
    filler = b'op=long tier=0 glue=0 lits='
    filler += b'0,' * ((READ - len(walk) - len(last) - 1 - len(filler)) // 2)
    filler += b'0' * (READ - len(walk) - len(last) - 1 - len(filler)) + b'\n'
    walk += filler + last
    assert len(walk) == READ and len(filler) > 2100
    sys.stdout.buffer.write(walk + b'0\nop=show\n')


if __name__ == '__main__':
    main()
