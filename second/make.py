"""Makes the calls of every room and the answers to them, and stores them, or compares with what is stored.

    python3 make.py             writes the stored files
    python3 make.py --check     compares them with what would be written, and writes nothing
    python3 make.py --errors    prints the calls that tell the five errors of document 01 apart

A crate that stands on `lines`, by its line in crates.txt, is a program that makes calls. The calls of a room are
in the stdin of the first program whose line names it, and their answers in its stdout. A room that no program names
waits in `stored`, with a file of each. The recordings of `samples` and their listings are made too; the program `list`
is run on the first of them.
"""

import os
import sys

import generate
import listing
import protocol
import samples

HERE = os.path.dirname(os.path.abspath(__file__))
TOP = os.path.dirname(HERE)
STORED = os.path.join('second', 'stored')


def programs():
    """The rooms whose calls each program of crates.txt makes, in our order, by the program's name."""
    with open(os.path.join(TOP, 'crates.txt'), encoding='utf-8') as file:
        lines = [line.split('#')[0].partition(':') for line in file]
    named = {crate.strip(): names.split() for crate, _, names in lines if 'lines' in names.split()}
    first = {room: crate for crate in reversed(named) for room in named[crate]}
    return {crate: [room for room in generate.ROOMS if first.get(room) == crate] for crate in named}


def texts(rooms):
    """The calls of these rooms, one a line, and the answers."""
    calls = [case.call for room in rooms for case in generate.room_cases(room)]
    return (''.join(call + '\n' for call in calls),
            ''.join(protocol.answer(call) + '\n' for call in calls))


def sample_files():
    """The recordings of `samples` and their listings; the first is what `list` is run on."""
    files = {}
    for name, made in samples.SAMPLES.items():
        data = made()
        files[os.path.join('samples', name + '.qsr')] = data
        files[os.path.join('samples', name + '.txt')] = listing.listing(data)
    files[os.path.join('crates', 'list', 'stdin')] = samples.paper()
    files[os.path.join('crates', 'list', 'stdout')] = listing.listing(samples.paper())
    return files


def made_files():
    """What every stored file holds, by its name below the repository's top."""
    called = programs()
    files = sample_files()
    for crate, rooms in called.items():
        names = [os.path.join('crates', crate, name) for name in ('stdin', 'stdout')]
        files.update(zip(names, texts(rooms)))
    for room in generate.ROOMS:
        if not any(room in rooms for rooms in called.values()):
            names = [os.path.join(STORED, room + ending) for ending in ('.calls', '.answers')]
            files.update(zip(names, texts([room])))
    return files


def stored_names():
    """What is stored now in the folders that hold nothing else."""
    for folder in (STORED, 'samples'):
        whole = os.path.join(TOP, folder)
        for name in sorted(os.listdir(whole)) if os.path.isdir(whole) else []:
            yield os.path.join(folder, name)


def as_bytes(made):
    return made if isinstance(made, bytes) else made.encode('ascii')


def write(files):
    for name in list(stored_names()):
        if name not in files:
            os.remove(os.path.join(TOP, name))
    for name, made in files.items():
        whole = os.path.join(TOP, name)
        data = as_bytes(made)
        os.makedirs(os.path.dirname(whole), exist_ok=True)
        with open(whole, 'wb') as file:
            file.write(data)
        print('%s: %d lines, %d bytes' % (name, data.count(b'\n'), len(data)))


def first_difference(stored, made):
    """The number of the first line that differs."""
    stored, made = stored.split(b'\n'), made.split(b'\n')
    for number, (one, two) in enumerate(zip(stored, made), 1):
        if one != two:
            return number
    return min(len(stored), len(made)) + 1


def check(files):
    """Exit status: 0 if exactly these files are stored, as made."""
    for name in stored_names():
        if name not in files:
            print('%s is stored and not made' % name)
            return 1
    for name, made in files.items():
        whole = os.path.join(TOP, name)
        if not os.path.exists(whole):
            print('%s is missing' % name)
            return 1
        with open(whole, 'rb') as file:
            stored = file.read()
        if stored != as_bytes(made):
            print('%s differs at line %d' % (name, first_difference(stored, as_bytes(made))))
            return 1
    print('second: %d files are exactly as made' % len(files))
    return 0


def error_lines():
    """(error, room, number of the call in its room, call) for each call that is named for an error."""
    for room in generate.ROOMS:
        for number, case in enumerate(generate.room_cases(room), 1):
            if case.error != 0:
                yield case.error, room, number, case.call


def print_errors():
    found = list(error_lines())
    for error, name in generate.ERRORS.items():
        print('error %d, %s:' % (error, name))
        for number, room, at, call in found:
            if number == error:
                print('  %s, call %d: %s' % (room, at, call))


def main(words):
    if words == ['--errors']:
        print_errors()
        return 0
    if words not in ([], ['--check']):
        print(__doc__)
        return 2
    files = made_files()
    if words:
        return check(files)
    write(files)
    return 0


if __name__ == '__main__':
    sys.exit(main(sys.argv[1:]))
