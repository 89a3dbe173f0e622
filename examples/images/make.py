#!/usr/bin/env python3
"""Makes the images that `judge` is tried on, from docs/IMAGE.md alone and with none of the code under crates/.

    examples/images/make.py            writes them to crates/judge/data, and the arguments of its run to crates/judge/args
"""
import os
import struct

HERE = os.path.dirname(os.path.abspath(__file__))
CRATE = os.path.join(HERE, '..', '..', 'crates', 'judge')
OUT = os.path.join(CRATE, 'data')
BLOCKS = 64
ZERO = bytes(64)


def padded(content):
    return content + bytes(64 - len(content))


def head(house, kind, count):
    return padded(struct.pack('<IBxxxI', house, kind, count))


def codes(values):
    return [struct.pack('<8Q', *[v % 2**64 for v in values[8 * j:8 * j + 8]]) for j in range(8)]


def row(user=0, procedure=0, role=0, mask=0):
    return struct.pack('<BBB5xQ', user, procedure, role, mask)


def rows(table):
    return [b''.join(table[4 * j:4 * j + 4]) for j in range(8)]


def entry(number, kind, first=0, second=0, procedure=0, role=0, place=0, a=0, b=0, n=0, mask=0):
    return padded(struct.pack('<8BQQI', kind, first, second, procedure, role, place, a, b, n, mask, number))


def image(kind, opening, items, table, records, size=BLOCKS, house=7):
    blocks = [ZERO] * 7 + [head(house, kind, len(records))]
    blocks += codes(items) + codes(opening) + rows(table)
    roll = b''.join(b'word%04d' % u for u in range(16))
    blocks += [roll[:64], roll[64:]] + records
    blocks += [b'\xaa' * 64] * (size - len(blocks))  # nobody reads what is past the last record
    return blocks


def commit(numbers):
    return padded(struct.pack('<Bx%dH' % len(numbers), len(numbers), *numbers))


def cut(before, after, committed):
    """The image `before`, with the change to `after` staged, and committed or not."""
    numbers = [k for k in range(7, len(before)) if before[k] != after[k]]
    blocks = list(before)
    for i, k in enumerate(numbers):
        blocks[1 + i] = after[k]
    if committed:
        blocks[0] = commit(numbers)
        blocks[numbers[0]] = after[numbers[0]]  # one block came home before the plug was pulled
    return blocks


def changed(blocks, block, byte, value):
    out = list(blocks)
    content = bytearray(out[block])
    content[byte] = value
    out[block] = bytes(content)
    return out


FREE = [row()] * 32
NONE = [0] * 64
CERTIFIED = [row(1, 1, 1, 0x101), row(2, 1, 2, 0x101)] + FREE[2:]
CERTIFICATIONS = [entry(1, 2, first=1, procedure=1, role=1, place=0, mask=0x101),
                  entry(2, 2, first=2, procedure=1, role=2, place=1, mask=0x101)]
CHARGE = entry(3, 1, first=1, second=2, procedure=1, a=8, b=0, n=4500)
CHARGED = [-4500] + [0] * 7 + [4500] + [0] * 55

fresh = image(1, NONE, NONE, FREE, [])
certified = image(1, NONE, NONE, CERTIFIED, CERTIFICATIONS)
posted = image(1, NONE, CHARGED, CERTIFIED, CERTIFICATIONS + [CHARGE])
struck = image(1, NONE, CHARGED, [row()] + CERTIFIED[1:], CERTIFICATIONS + [CHARGE, entry(4, 3, place=0)])
shelves = [4 + 10 * 2**32, 4 + 10 * 2**32] + [0] * 62
stocked = image(2, shelves, shelves, FREE, [])

IMAGES = [
    ('ledger', 'fresh', fresh),
    ('ledger', 'certified', certified),
    ('ledger', 'posted', posted),
    ('ledger', 'struck', struck),
    ('ledger', 'staged', cut(certified, posted, False)),
    ('ledger', 'committed', cut(certified, posted, True)),
    ('ledger', 'largest', image(1, NONE, NONE, FREE, [], size=1024)),
    ('ledger', 'too-small', fresh[:34]),
    ('ledger', 'too-large', image(1, NONE, NONE, FREE, [], size=1025)),
    ('ledger', 'commit-block', changed(posted, 0, 63, 1)),
    ('ledger', 'house-zero', changed(changed(posted, 7, 0, 0), 7, 1, 0)),
    ('ledger', 'other-kind', changed(posted, 7, 4, 2)),
    ('ledger', 'head-spare', changed(posted, 7, 63, 1)),
    ('ledger', 'count-high', changed(posted, 7, 8, 31)),
    ('ledger', 'count-low', changed(posted, 7, 8, 2)),
    ('ledger', 'opening', changed(posted, 16, 0, 1)),
    ('ledger', 'record-spare', changed(posted, 36, 63, 1)),
    ('ledger', 'record-role', changed(posted, 36, 4, 1)),
    ('ledger', 'record-number', changed(posted, 35, 24, 3)),
    ('ledger', 'same-person', changed(posted, 36, 2, 1)),
    ('ledger', 'not-entitled', changed(posted, 36, 2, 3)),
    ('ledger', 'wrong-amount', changed(posted, 36, 9, 0)),
    ('ledger', 'item', changed(posted, 9, 0, 0)),
    ('ledger', 'row', changed(posted, 24, 3, 1)),
    ('stock', 'stocked', stocked),
    ('stock', 'stock-sums', changed(stocked, 8, 0, 5)),
    ('stock', 'of-the-ledger', posted),
]

# Those whose own head is to name the book, and some that are judged so as well as by the book that is named.
HEADLESS = [
    ('strange-kind', changed(posted, 7, 4, 9)),
    ('no-head', fresh[:7]),
]
BY_HEAD = ['posted', 'stocked', 'committed', 'too-small', 'other-kind', 'house-zero', 'strange-kind', 'no-head']


def write(name, blocks):
    with open(os.path.join(OUT, name + '.img'), 'wb') as f:
        f.write(b''.join(blocks))


def main():
    os.makedirs(OUT, exist_ok=True)
    words, book = [name + '.img' for name in BY_HEAD], None
    for name, blocks in HEADLESS:
        write(name, blocks)
    for name_of_book, name, blocks in IMAGES:
        write(name, blocks)
        if name_of_book != book:
            words.append(name_of_book)
            book = name_of_book
        words.append(name + '.img')
    with open(os.path.join(CRATE, 'args'), 'w') as f:
        f.write('\n'.join(words) + '\n')


if __name__ == '__main__':
    main()
