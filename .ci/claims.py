"""What the documents say beside names: how wide they are, which wrong answers are tried, which refusals there are, what a
command prints, and in which order the definitions are read. Each function gives the complaints about a text;
.ci/test-docs has the rules."""
import re
import subprocess

from documents import prose_lines, sections

WIDTH = 120
MACHINE = r'(?<![\w.])/(?:tmp|work|opt|root|home)/'


def form(text):
    for number, line in prose_lines(text):
        if len(line) > WIDTH:
            yield 'line %d has %d characters' % (number, len(line))
    for number, line in enumerate(text.split('\n'), 1):
        if re.search(MACHINE, line):
            yield 'line %d names a path of a machine' % number


def port(text):
    """The page begins with the three commits that it tells of; the last may be none."""
    if not re.match(r'[0-9a-f]{40}\n[0-9a-f]{40}\n(?:[0-9a-f]{40}|none)\n\n', text):
        yield 'does not begin with three commits'


def answers(text, project):
    """A wrong answer stands in its room's section, if there is one, or with its room's name anywhere."""
    parts = list(sections(text))
    for room, names in project.answers.items():
        own = [part for rooms, part in parts if room in rooms] or [part for _, part in parts]
        for name in names:
            if '`%s/%s`' % (room, name) not in text and not any('`%s`' % name in part for part in own):
                yield 'does not name the wrong answer %s of %s' % (name, room)


def given(top):
    """The refusals of the header."""
    enum = re.search(r'enum scorve_refusal \{(.*?)\}', (top / 'include/scorvemaglio.h').read_text(), re.S)[1]
    return set(re.findall(r' = (\d+)', enum)) - {'0'}


def refusals(text, top):
    """The list of them, a table's first column or else bold numbers, is the header's."""
    part = re.search(r'^## [^\n]*[Rr]efusal(?:s| numbers)$(.*?)(?=^## )', text, re.M | re.S)[1]
    cells = [cell.strip() for cell in re.findall(r'^\|([^|]*)\|', part, re.M)]
    listed = {k for cell in cells if cell.strip('-') for k in cell.split(', ')} or set(re.findall(r'\*\*(\d+)\*\*', part))
    yield from ('does not list refusal %s of the header' % k for k in sorted(given(top) - listed))
    yield from ('lists refusal %s, which the header has not' % k for k in sorted(listed - given(top)))


def unused(text, documents, top):
    """A refusal that one of the documents says is not used is so in this one, and not in the header."""
    said = [set(re.findall(r'(?:Number\s+|\*\*)(\d+)\s+is\s+not\s+used', t)) for t in [text, *documents]]
    yield from ('does not say that refusal %s is not used' % k for k in sorted(set().union(*said) - said[0]))
    yield from ('says that refusal %s is not used' % k for k in sorted(said[0] & given(top)))


def told(text):
    """(command, output) of each line of code that begins with a prompt; a quote may go on over lines."""
    lines, at = text.split('\n') + [''], 0
    while at < len(lines):
        line, at = lines[at], at + 1
        if not line.startswith('    $ '):
            continue
        command, output = line[6:], []
        while command.count("'") % 2 and at < len(lines):
            command, at = command + '\n' + lines[at], at + 1
        while lines[at].startswith('    ') and not lines[at].startswith('    $ '):
            output, at = output + [lines[at][4:]], at + 1
        yield command, output


def dumps(text):
    """(command, lines) of each dump: a command of od in backquotes and the code after it, less the words that explain."""
    for command, code in re.findall(r'`(od [^`]+)`[^`]*?\n\n((?: {4}.*\n)+)', text):
        yield command, [re.split(r' {4}', line[4:])[0].rstrip() for line in code.splitlines()]


def commands(text, top):
    for command, output in [*told(text), *dumps(text)]:
        done = subprocess.run(['bash', '-c', command], cwd=top, stdout=subprocess.PIPE, stderr=subprocess.DEVNULL)
        if done.stdout.decode(errors='replace').splitlines() != output:
            yield 'has a command that prints another text: %s' % command.split('\n')[0]


def rows(text):
    """(file of specs/, its lines as told) of each row of a table."""
    return [(name, int(lines)) for name, lines in re.findall(r'^\| `(\w+/specs/\w+\.antt)` \| (\d+) \|', text, re.M)]


def reading(text, top):
    """Every file of definitions is named, with its length to tens, and in the first table after those that it uses."""
    crates = top / 'crates'
    for path in sorted(crates.glob('*/specs/*.antt')):
        name = str(path.relative_to(crates))
        if path.name != 'Lib.antt' and '`%s`' % name not in text:
            yield 'does not name %s' % name
    for path in [*crates.glob('*/specs/*.antt'), *crates.glob('*/src/*.rt')]:
        if re.search(r'^ *(?:(?:pub|ghost|unfoldable) )*use \S*\bproofs\.', path.read_text(), re.M):
            yield 'says that contracts and definitions cite no proof, and %s does' % path.relative_to(crates)
    for name, lines in rows(text):
        if (crates / name).exists() and abs(len((crates / name).read_text().splitlines()) - lines) > 9:
            yield 'says that %s has %d lines' % (name, lines)
    before = set()
    for name, _ in rows(re.split(r'(?m)^## ', text)[2]):
        # not what rattle makes of the code, nor the kit's words
        uses = r'^(?:(?:pub|unfoldable) )*use Rattle\.(\w+)\.specs\.(?!declared\b|contracts\b)(\w+)'
        for room, file in re.findall(uses, (crates / name).read_text(), re.M):
            used = '%s/specs/%s.antt' % (room, file)
            if used not in before and (crates / room).is_dir():
                yield 'has %s before %s, which it uses' % (name, used)
        before.add(name)
