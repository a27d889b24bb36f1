#!/usr/bin/env python3
"""python3 .ci/archive.py TO: makes the archive for C, libscorvemaglio.a, by rt lib, and copies it to TO. The archive is
kept by the checksum of all that it is made from, since rt lib proves each crate below it once more where only rt ci has
proved it. What rt says stands on standard output. Status: 0 done, else rt's."""
import pathlib
import shutil
import subprocess
import sys

sys.dont_write_bytecode = True
from kept import TOP, Kept, Sums  # noqa: E402

CRATE = 'scorvemaglio'


def main(to):
    kept, name = Kept(), 'archive-%s.a' % Sums().of(CRATE)
    kept.wait()
    found = kept.get(name)
    if not found:
        status = subprocess.run(['rt', 'lib'], cwd=TOP / 'crates' / CRATE, stdin=subprocess.DEVNULL).returncode
        if status:
            return status
        found = TOP / 'crates' / CRATE / 'out' / ('lib%s.a' % CRATE)
        kept.put(name, found.read_bytes())
    shutil.copyfile(found, pathlib.Path(to))
    kept.shrink()
    return 0


if __name__ == '__main__':
    sys.exit(main(*sys.argv[1:]))
