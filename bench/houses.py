#!/usr/bin/env python3
"""A full catalogue: houses.py alike|collide BYTES, with 64 names of so many bytes.

alike: they differ only in their last bytes. collide: they also have one hash, as only names have that are made for it.
"""
import itertools
import sys

LINES = 64
kind, size = sys.argv[1], int(sys.argv[2])


def mixed(h, word):
    x = (h + word) % 2**64
    return (x % 2**32 * 1_640_531_527 + x // 2**32 * 2_246_822_519) % 2**64


def chain(name):
    """The chain of a name of eight bytes or more, as `nametable` has it."""
    h = len(name)
    for at in [*range(0, len(name) - 8, 8), len(name) - 8]:
        h = mixed(h, int.from_bytes(name[at:at + 8], 'little'))
    return h // 2**32 % 1024


def all_names():
    for end in itertools.product(b'0123456789ABCDEFGHIJKLMNOPQRSTUVWXYZ_', repeat=4):
        yield b'N' * (size - 4) + bytes(end)


names = all_names()
if kind == 'collide':
    first = next(all_names())
    names = (name for name in all_names() if chain(name) == chain(first))
for name in itertools.islice(names, LINES):
    print(f'{name.decode()}\t2361222')
