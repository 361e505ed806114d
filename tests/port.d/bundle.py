#!/usr/bin/env python3
"""Writes procedures as the driver of tests/port reads them, each file's length and its bytes; of a .trace those on its lines `file`."""
import sys


def procedures(name):
    with open(name, 'rb') as f:
        bytes_read = f.read()
    if not name.endswith('.trace'):
        return [bytes_read]
    return [bytes.fromhex(line.split()[1]) for line in bytes_read.decode().splitlines() if line.startswith('file ')]


for name in sys.argv[1:]:
    for file in procedures(name):
        sys.stdout.buffer.write(len(file).to_bytes(4, 'little') + file)
