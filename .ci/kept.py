"""What earlier runs of the gate made and learnt on this machine, beside what rt keeps itself: it stands below the user's
cache folder, each piece under the checksum of all that it was made from, so that a run takes time only for what changed.
Where that folder cannot be written, nothing is kept, and each run does all again."""
import fcntl
import hashlib
import os
import pathlib
import shutil
import subprocess
import tempfile
import time

TOP = pathlib.Path(__file__).resolve().parent.parent
PARTS = ('src', 'specs', 'proofs')
DAYS = 30  # what no run has used for so long is removed


def listed(text):
    """{crate of crates.txt: its own line, and the crates of the list below it, each after those that it stands on}"""
    lines = {}
    for line in text.split('\n'):
        name, colon, below = line.partition('#')[0].partition(':')
        if colon:
            lines[name.split()[0]] = (name + colon + below, below.split())

    def below(name, found):
        for it in lines[name][1]:
            if it in lines and it not in found:
                found = [*below(it, found), it]
        return found

    return {name: (line, below(name, [])) for name, (line, _) in lines.items()}


class Sums:
    """The checksum of all that a check of a crate reads: the kit, the crate and those below it, with their lines."""

    def __init__(self, top=TOP):
        self.top, self.crates, self.texts = top, listed((top / 'crates.txt').read_text()), {}
        self.kit = subprocess.run(['rt', 'version'], stdout=subprocess.PIPE, check=True).stdout

    def files(self, crate):
        if crate not in self.texts:
            at = self.top / 'crates' / crate
            paths = [path for part in PARTS for path in sorted((at / part).rglob('*')) if path.is_file()]
            self.texts[crate] = {str(path.relative_to(at)): path.read_bytes() for path in paths}
        return self.texts[crate]

    def of(self, crate, changed=()):
        """With these texts in the place of the crate's own."""
        line, below = self.crates[crate]
        read = [self.kit, line, sorted({**self.files(crate), **dict(changed)}.items())]
        read += [(name, self.crates[name][0], sorted(self.files(name).items())) for name in below]
        return hashlib.sha256(repr(read).encode()).hexdigest()


class Kept:
    def __init__(self):
        cache = os.environ.get('XDG_CACHE_HOME') or os.path.join(os.path.expanduser('~'), '.cache')
        self.at, self.lock = pathlib.Path(cache) / 'scorvemaglio', None
        try:
            self.at.mkdir(mode=0o700, parents=True, exist_ok=True)
            self.lock = open(self.at / 'lock', 'w')
        except OSError:
            self.at = None

    def wait(self):
        """Waits for another run, and keeps others waiting until this one ends: they can then take what this one made."""
        if self.lock:
            fcntl.flock(self.lock, fcntl.LOCK_EX)

    def get(self, name):
        """The file of that name, or None."""
        file = self.at and self.at / name
        if not file or not file.is_file():
            return None
        os.utime(file)
        return file

    def put(self, name, data):
        """Written apart and then renamed, so that no other run meets half of it."""
        if self.at:
            part = self.at / (name + '.part')
            part.write_bytes(data)
            part.rename(self.at / name)

    def shrink(self):
        for file in self.at.iterdir() if self.at else ():
            if file.is_file() and file.name != 'lock' and file.stat().st_mtime < time.time() - DAYS * 86400:
                file.unlink()

    def room(self):
        """An empty folder. It is the same each time, since rt notes each folder in which it left work."""
        if not self.at:
            return pathlib.Path(tempfile.mkdtemp(prefix='scorvemaglio-'))
        shutil.rmtree(self.at / 'room', ignore_errors=True)
        (self.at / 'room').mkdir()
        return self.at / 'room'
