#!/usr/bin/env python3
"""Compares the desk's JSON objects with its lines, the files' bytes and Python's own reading of names.

`objects.py names DIR FILE` copies a file to names of every byte and of good and bad UTF-8.
`objects.py compare REVISION LINES FOLDER ..` reads the objects of the folders' files and prints how many agree with LINES.
"""
import hashlib
import json
import os
import re
import shutil
import sys

KEYS = ['name', 'verdict', 'question', 'place', 'item', 'function', 'node', 'variable', 'sentence', 'edition', 'sha256', 'revision']
SEQUENCES = [b'\xc3\xa9', b'\xe2\x82\xac', b'\xf0\x9f\x98\x80', b'\xf4\x8f\xbf\xbf', b'\xed\x9f\xbf', b'\xee\x80\x80',
             b'\xc0\x80', b'\xc1\xbf', b'\xe0\x80\x80', b'\xe0\x9f\xbf', b'\xe0\xa0\x80', b'\xed\xa0\x80', b'\xed\xbf\xbf',
             b'\xf0\x80\x80\x80', b'\xf0\x8f\xbf\xbf', b'\xf0\x90\x80\x80', b'\xf4\x90\x80\x80', b'\xf5\x80\x80\x80',
             b'\xe2\x82', b'\xf0\x9f\x98', b'\xc3', b'\x80\xbf', b'\xc3\xc3\xa9', b'\xe2\x82\xe2\x82\xac', b'"\\"\\u0041']


def make_names(folder, source):
    """Copies the source to a name for each byte that a name can have, and for each sequence."""
    for middle in [bytes([b]) for b in range(1, 256) if b != 47] + SEQUENCES:
        shutil.copy(source, os.path.join(os.fsencode(folder), b'a' + middle + b'z.pr'))


def readable(name):
    """A name with the replacement character for each byte that begins no character."""
    text, i = '', 0
    while i < len(name):
        for length in (1, 2, 3, 4):
            try:
                text += name[i:i + length].decode('utf-8')
                i += length
                break
            except UnicodeDecodeError:
                continue
        else:
            text += '\ufffd'
            i += 1
    return text


def printed(name):
    """A name as a line has it: a question mark for a control byte."""
    return bytes(63 if b < 32 or b == 127 else b for b in name)


def located(data, place):
    """The function and the node in it of a record, by the file's own counts."""
    functions = int.from_bytes(data[2:4], 'little')
    if place == 0 or 12 * place + 12 > len(data):
        return None, None
    if place <= functions:
        return place - 1, None
    start = 1 + functions
    for f in range(functions):
        count = int.from_bytes(data[12 * (1 + f) + 8:12 * (1 + f) + 12], 'little')
        if place < start + count:
            return f, place - start
        start += count
    return None, None


def variable(data, refusal):
    """The variable that a refusal names: question 10's item, or that of a node of kind 2, 8 or 9."""
    question, place, item = refusal
    function, node = located(data, place)
    if node is not None and data[12 * place + 2] in (2, 8, 9):
        return int.from_bytes(data[12 * place + 4:12 * place + 8], 'little')
    return item if question == 10 and function is not None else None


def files_of(folders):
    """The files that folders stand for, in the desk's order."""
    for folder in folders:
        found = [os.path.join(os.fsencode(at), os.fsencode(name)) for at, below, names in os.walk(folder)
                 for name in names + [link for link in below if os.path.islink(os.path.join(at, link))]]
        yield from sorted(name for name in found if name.endswith(b'.pr'))


def expected(name, line, revision):
    """What the object of a file with this line has to be."""
    said = line[len(printed(name)):] if line.startswith(printed(name)) else b''
    match = re.fullmatch(rb': (passed(?:, edition 1)?|refused (\d+) place (\d+) item (\d+): (.*)|cannot be read: .*)', said)
    if match is None:
        return None
    if match[1].startswith(b'cannot'):
        return dict(zip(KEYS, [readable(name), 'unread'] + [None] * 6 + [match[1].decode(), None, None, revision]))
    with open(name, 'rb') as file:
        data = file.read()
    digest = hashlib.sha256(data).hexdigest() if len(data) <= 50700 else None
    if match[1].startswith(b'passed'):
        if match[1] != (b'passed' if data[8] == 0 else b'passed, edition %d' % data[8]):
            return None
        return dict(zip(KEYS, [readable(name), 'passed'] + [None] * 7 + [data[8], digest, revision]))
    refusal = [int(match[k]) for k in (2, 3, 4)]
    places = [*located(data, refusal[1]), variable(data, refusal)]
    edition = data[8] if refusal[0] > 2 else None
    return dict(zip(KEYS, [readable(name), 'refused', *refusal, *places, match[5].decode(), edition, digest, revision]))


def compare(revision, lines, folders):
    """Prints how many objects are as their lines, and those that are not."""
    with open(lines, 'rb') as file:
        said = [line for line in file.read().split(b'\n')[:-1] if not re.match(rb'refused by question|files: ', line)]
    objects = sys.stdin.buffer.read().split(b'\n')[:-1]
    names = list(files_of(folders))
    same = 0
    for name, text, line in zip(names, objects, said):
        found, wanted = json.loads(text.decode('utf-8')), expected(name, line, revision)
        if wanted is not None and list(found) == KEYS and found == wanted:
            same += 1
        else:
            print(name, text, line, wanted)
    print(same if len(names) == len(objects) == len(said) else f'{len(names)} files, {len(objects)} objects, {len(said)} lines')


if sys.argv[1] == 'names':
    make_names(sys.argv[2], sys.argv[3])
else:
    compare(sys.argv[2], sys.argv[3], sys.argv[4:])
