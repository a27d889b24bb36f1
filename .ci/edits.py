#!/usr/bin/env python3
"""Has rt check each crate with each of its must-fail edits, and writes all that the check says: rt itself tells of a
refusal only the first line. python3 .ci/edits.py TO [--anew] CRATE.. writes TO/CRATE/EDIT.log.

An edit is read as rt reads it. Each check runs in a copy of the crates and begins with what a check of the crate as it
stands kept; as many run at once as there are processors, and memory for them. What a check said is kept by the checksum
of all that it read (kept.py), so that only what changed is tried again; --anew tries all. Status 0 where each edit was
tried; else the lines say which crate is not proved as it stands, which edit cannot be applied, and which check gave no
verdict. With --self-test: tries how it reads edits, and what their checksums stand for."""
import concurrent.futures
import os
import pathlib
import queue
import re
import shutil
import subprocess
import sys
import tempfile

sys.dont_write_bytecode = True
from kept import PARTS, TOP, Kept, Sums  # noqa: E402

EACH = 2_500_000_000  # bytes that a check may take


def applied(edit, crate):
    """{path in the crate: its text with the edit}; a ValueError says why the edit cannot be applied."""
    path, old, texts, pairs = '', '', {}, 0
    for line in edit.split('\n'):
        if line.startswith('file: '):
            path = line[len('file: '):].strip()
            if os.path.normpath(path) != path or not path.startswith(tuple(part + '/' for part in PARTS)):
                raise ValueError("'file: %s' names no file below src/, specs/ or proofs/" % path)
        elif line.startswith('old: '):
            old = line[len('old: '):]
        elif line.startswith('new:'):
            new = re.sub(r'\A ', '', line[len('new:'):])
            if not path or not old:
                raise ValueError("a 'new:' stands before any 'file:' or 'old:'")
            if path not in texts:
                if not (crate / path).is_file():
                    raise ValueError('there is no file ' + path)
                texts[path] = (crate / path).read_text()
            if texts[path].count(old) != 1:
                raise ValueError("an 'old:' is in %s %d times, and not once" % (path, texts[path].count(old)))
            texts[path], old, pairs = texts[path].replace(old, new), '', pairs + 1
    if not pairs:
        raise ValueError("it has no pair of 'old:' and 'new:'")
    if all(text == (crate / path).read_text() for path, text in texts.items()):
        raise ValueError('it changes nothing')
    return texts


class Edit:
    """An edit to be tried, the texts that it makes, and the checksum of all that its check reads."""

    def __init__(self, path, sums):
        self.crate, self.name, self.label = path.parts[-3], path.stem, '%s/%s' % (path.parts[-3], path.name)
        self.texts = applied(path.read_text(), path.parent.parent)
        self.key = sums.of(self.crate, {path: text.encode() for path, text in self.texts.items()})


def lanes():
    """How many checks may run at once."""
    memory = re.search(r'MemAvailable:\s+(\d+)', pathlib.Path('/proc/meminfo').read_text())
    return max(1, min(len(os.sched_getaffinity(0)), int(memory[1]) * 1024 // EACH))


def copy_crates(to):
    for crate in (TOP / 'crates').iterdir():
        for part in PARTS:
            if (crate / part).is_dir():
                shutil.copytree(crate / part, to / 'crates' / crate.name / part)
    shutil.copy(TOP / 'crates.txt', to / 'crates.txt')


def check(top, crate):
    ran = subprocess.run(['rt', 'check', '--jobs', '1'], cwd=top / 'crates' / crate, stdin=subprocess.DEVNULL,
                         stdout=subprocess.PIPE, stderr=subprocess.STDOUT, text=True, errors='replace')
    return ran.returncode, ran.stdout


def link(one, other):
    """What was proved is linked, since a check replaces such a file and changes none."""
    try:
        if one.endswith('.oantt'):
            return os.link(one, other)
    except OSError:
        pass
    return shutil.copy2(one, other)


def seed(top, crate, to):
    """The check of the crate as it stands, in the copy top; what it kept is left in the folder to."""
    status, said = check(top, crate)
    if status == 0:
        shutil.copytree(top / 'crates' / crate / 'out/incremental', to, copy_function=link)
    return status, said


def try_edit(top, edit, begin):
    """(status, what was said) of the check with the edit, in the copy top; it begins with what that folder holds."""
    crate = top / 'crates' / edit.crate
    shutil.rmtree(crate / 'out/incremental', ignore_errors=True)
    shutil.copytree(begin, crate / 'out/incremental', copy_function=link)
    for path, text in edit.texts.items():
        (crate / path).write_text(text)
    try:
        return check(top, edit.crate)
    finally:
        for path in edit.texts:
            shutil.copy(TOP / 'crates' / edit.crate / path, crate / path)


def is_verdict(status, said):
    """Not where the check was killed, could not tell, did not reach the prover, or could not use what a library kept."""
    stale = re.search(r'module .Rattle-\w+-.*Run the lower steps again', said)
    return status == 0 or (status == 1 and not stale and bool(re.search(r'^logic=not-proved', said, re.M)))


def try_all(edits, kept, logs):
    """Tries the edits, and adds what their checks said to logs and to what is kept. Gives what went wrong."""
    room, free, number, bad = kept.room(), queue.Queue(), lanes(), []
    try:
        for lane in range(number):
            copy_crates(room / str(lane))
            free.put(room / str(lane))

        def in_a_copy(work, *given):
            top = free.get()
            try:
                return work(top, *given)
            finally:
                free.put(top)

        with concurrent.futures.ThreadPoolExecutor(number) as pool:
            names = list(dict.fromkeys(edit.crate for edit in edits))
            begun = {name: pool.submit(in_a_copy, seed, name, room / 'seeds' / name) for name in names}
            for name, task in begun.items():
                status, said = task.result()
                if status:
                    bad.append('%s\nedits: %s is not proved as it stands, so its edits were not tried' % (said[-2000:], name))
            edits = [edit for edit in edits if begun[edit.crate].result()[0] == 0]
            print('edits: trying %d' % len(edits), flush=True)
            tried = {edit: pool.submit(in_a_copy, try_edit, edit, room / 'seeds' / edit.crate) for edit in edits}
            for edit, task in tried.items():
                status, said = task.result()
                if not is_verdict(status, said):  # killed for memory, say: once more
                    status, said = in_a_copy(try_edit, edit, room / 'seeds' / edit.crate)
                if is_verdict(status, said):
                    kept.put('edit-%s.log' % edit.key, said.encode())
                    logs[edit] = said
                else:
                    bad.append('%s\nedits: %s: its check gave no verdict, status %d' % (said[-2000:], edit.label, status))
    finally:
        shutil.rmtree(room, ignore_errors=True)
    return bad


def read_edits(names, top=TOP):
    """The edits of these crates, and what is wrong with those that cannot be applied."""
    sums, found = Sums(top), []
    bad = ['edits: crates.txt lists no crate %s' % name for name in names if name not in sums.crates]
    for crate in sorted({*names} & {*sums.crates}, key=lambda name: (len(sums.crates[name][1]), name)):
        for path in sorted((top / 'crates' / crate / 'must-fail').glob('*.edit')):
            try:
                found.append(Edit(path, sums))
            except ValueError as error:
                bad.append('edits: %s/%s cannot be applied: %s' % (crate, path.name, error))
    return found, bad


def main(to, anew, names):
    edits, bad = read_edits(names)
    kept, logs = Kept(), {}

    def known(edit):
        found = kept.get('edit-%s.log' % edit.key)
        return found and found.read_text()

    if not anew:
        logs = {edit: known(edit) for edit in edits}
    if not all(logs.get(edit) for edit in edits):
        kept.wait()
        new = [edit for edit in edits if not logs.get(edit)]
        if not anew:  # another run may have tried some meanwhile
            logs.update((edit, known(edit)) for edit in new)
            new = [edit for edit in new if not logs[edit]]
        if new:
            bad += try_all(new, kept, logs)
        kept.shrink()
    for edit in edits:
        if logs.get(edit):
            file = pathlib.Path(to) / edit.crate / (edit.name + '.log')
            file.parent.mkdir(parents=True, exist_ok=True)
            file.write_text(logs[edit])
    print('\n'.join(bad), end='\n' if bad else '')
    return 1 if bad else 0


# An edit, and the text of src/lib.rt that it makes, or a part of what is wrong with it. The file holds 'a b a', 'c'.
READ = [
    (['# of f: wrong', 'file: src/lib.rt', 'refused: f', 'old: b', 'new: d'], 'a d a\nc\n'),
    (['file: src/lib.rt', 'old: c', 'new:'], 'a b a\n\n'),
    (['file: src/lib.rt', 'old: b', 'new: d', 'old: d a', 'new:  e'], 'a  e\nc\n'),
    (['file: src/lib.rt', 'old: a', 'new: d'], 'in src/lib.rt 2 times'),
    (['file: src/lib.rt', 'old: e', 'new: d'], 'in src/lib.rt 0 times'),
    (['file: src/lib.rt', 'old: b'], 'no pair'),
    (['file: src/lib.rt', 'new: d'], "before any 'file:' or 'old:'"),
    (['old: b', 'new: d'], "before any 'file:' or 'old:'"),
    (['file: src/main.rt', 'old: b', 'new: d'], 'there is no file'),
    (['file: ../one/src/lib.rt', 'old: b', 'new: d'], 'names no file'),
    (['file: stdin', 'old: b', 'new: d'], 'names no file'),
    (['file: src/lib.rt', 'old: b', 'new: b'], 'changes nothing'),
]


def self_test():
    bad = []
    with tempfile.TemporaryDirectory() as room:
        top = pathlib.Path(room)
        for crate in ('low', 'one', 'other'):
            (top / 'crates' / crate / 'src').mkdir(parents=True)
            (top / 'crates' / crate / 'src/lib.rt').write_text('a b a\nc\n')
        (top / 'crates.txt').write_text('one staticlib: low io # a remark\nlow:\nother:\n')
        edit = top / 'crates/one/must-fail/edit.edit'
        edit.parent.mkdir()
        for lines, expected in READ:
            edit.write_text('\n'.join(lines) + '\n')
            found, said = read_edits(['one'], top)
            got = found[0].texts['src/lib.rt'] if found else said[0]
            if got != expected if found else expected not in got:
                bad.append('edits: %s: it reads %r' % (lines, got))

        def key(text='d'):
            edit.write_text('file: src/lib.rt\nold: b\nnew: %s\n' % text)
            return read_edits(['one'], top)[0][0].key

        first = key()
        (top / 'crates/other/src/lib.rt').write_text('e')
        if key() != first:
            bad.append('edits: a crate that does not stand below changes the checksum')
        keys = [first, key('e')]
        for path in ('crates/one/src/more.rt', 'crates/low/src/lib.rt', 'crates/low/specs.antt'):
            path = top / path.replace('specs.antt', 'specs/Lib.antt')
            path.parent.mkdir(exist_ok=True)
            path.write_text('f')
            keys.append(key())
        (top / 'crates.txt').write_text('one: low io\nlow:\nother:\n')
        keys.append(key())
        if len(set(keys)) != len(keys):
            bad.append('edits: two different checks have one checksum')
    print('\n'.join(bad) or 'edits: they are read as rt reads them')
    return 1 if bad else 0


if __name__ == '__main__':
    words = sys.argv[1:]
    if words == ['--self-test']:
        sys.exit(self_test())
    to, *names = [word for word in words if word != '--anew']
    sys.exit(main(to, '--anew' in words, names))
