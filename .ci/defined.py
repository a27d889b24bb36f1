"""What is defined where in the project, for .ci/test-docs. A name counts where it is declared, and not where it is used:
  .antt     `name :` at the start of a declaration, a field, a constructor; `record Name`, `data Name`
  .rt .rs   fn and its parameters, struct, enum, const, mod and type; the fields of a struct, the variants of an enum; the
            labels of clauses, as in `ensures label { .. }`
  .c .h     functions, macros, structs, enums and their fields; in include/ all that stands outside comments
  .py       def, class, and what is assigned at the left margin
  scripts   functions, and variables that are assigned
  --option  in a script or a program, outside its comments
A file counts by its name, with and without suffix, and so does an edit by the names of the wrong answers that it holds."""
import collections
import pathlib
import re

ROOM_FILES = ('.antt', '.rt')
ROOM_PARTS = ('src', 'specs', 'proofs')
OTHER_FOLDERS = ('include', 'tests', 'bench', 'examples', 'second', '.ci', 'samples')
NAME = r"[^\s(){}:;,.`\"|]+"


def antt_names(text):
    text = re.sub(r'(?<!\S)--.*', '', text)
    found = set(re.findall(r'^ *(?:(?:abbrev|unfoldable|pub) )*(?:record|data) (%s)' % NAME, text, re.M))
    declared = r'^ *(?:(?:abbrev|unfoldable|pub) )*(%s(?: %s)*)(?: \{[^{}\n]*\})* *:(?= |$)' % (NAME, NAME)
    for names in re.findall(declared, text, re.M):
        names = names.split()
        if names[0] not in ('let', 'in', '--', 'module', 'record', 'data', '→', 'λ'):
            found.update(names)
    return found


def blocks(words, text):
    """The bodies of `struct X { .. }` and the like, braces in them not counted beyond one level."""
    return re.findall(r'\b(?:%s)\b[^{};()]*\{((?:[^{}]|\{[^{}]*\})*)\}' % words, text)


def rust_names(text):
    text = re.sub(r'//.*', '', text)
    found = set(re.findall(r'\b(?:fn|struct|enum|const|mod|type) (\w+)', text))
    found.update(re.findall(r'^\s*(?:requires|ensures)\*? (\w+) \{', text, re.M))
    for body in blocks('struct', text) + blocks('enum', text):
        found.update(re.findall(r'(\w+)\s*:', body))
        found.update(re.findall(r'^\s*(\w+)\s*(?=[,({]|= \d+,|$)', body, re.M))
    return found


def c_names(text, declares_all=False):
    text = re.sub(r'/\*.*?\*/|//[^\n]*', '', text, flags=re.S)
    if declares_all:
        return set(re.findall(r'[A-Za-z_]\w*', text))
    found = set(re.findall(r'^\s*#\s*define (\w+)', text, re.M))
    found.update(re.findall(r'\b(?:struct|enum|union) (\w+)', text))
    found.update(re.findall(r'^\w[\w *]*?\b(\w+)\(', text, re.M))
    for body in blocks('struct|enum|union', text):
        found.update(re.findall(r'(\w+)\s*(?:\[[^;]*\])?\s*[,;=]', body))
    return found


def options(text):
    return set(re.findall(r'(?<![\w-])--[a-z][\w-]*', re.sub(r'^ *#.*', '', text, flags=re.M)))


def python_names(text):
    found = set(re.findall(r'^ *(?:def|class) (\w+)', text, re.M)) | set(re.findall(r'^(\w+) = ', text, re.M))
    return found | options(text)


def script_names(text):
    found = set(re.findall(r'^ *(\w[\w-]*)\(\) *\{', text, re.M)) | set(re.findall(r'\b([A-Za-z_]\w*)=', text))
    return found | options(text)


def names_in(path):
    """Every name that a file defines."""
    if path.suffix == '.antt':
        return antt_names(path.read_text())
    if path.suffix in ('.rt', '.rs'):
        return rust_names(path.read_text())
    if path.suffix in ('.c', '.h'):
        return c_names(path.read_text(), path.parent.name == 'include')
    if path.suffix == '.py':
        return python_names(path.read_text())
    if path.suffix == '' and path.read_bytes()[:2] == b'#!':
        text = path.read_text()
        return python_names(text) if 'python' in text.split('\n', 1)[0] else script_names(text)
    return set()


def wrong_answers(edit):
    """The names of an edit's wrong answers: the file's, and those before its other parts."""
    return [edit.stem] + [n for n in re.findall(r'^# (\w+), of ', edit.read_text(), re.M) if n != edit.stem]


def parameters(text):
    """{function: [its parameters' names, ..]} of a file in Rattle."""
    found = collections.defaultdict(list)
    for name, inside in re.findall(r'\bfn (\w+)(?:<[^>]*>)?\(([^)]*)\)', re.sub(r'//.*', '', text)):
        names = [re.sub(r'^(?:&\s*)?(?:mut )?', '', part.split(':')[0].strip()) for part in inside.split(',')]
        found[name].append([n for n in names if n])
    return found


class Project:
    """The project's names: of each room, of each file of a room, and of all the rest together."""

    def __init__(self, top):
        self.top = top
        self.rooms, self.files, self.parameters, self.answers = {}, {}, {}, {}
        for folder in sorted(p for p in (top / 'crates').iterdir() if p.is_dir()):
            self.read_room(folder)
        self.anywhere = set().union(*self.rooms.values()) | set(self.rooms)
        self.others()
        self.kit()

    def read_room(self, folder):
        room, names = folder.name, set()
        self.parameters[room] = collections.defaultdict(list)
        self.answers[room] = [a for edit in sorted(folder.glob('must-fail/*.edit')) for a in wrong_answers(edit)]
        for path in folder.rglob('*'):
            if path.suffix in ROOM_FILES and path.relative_to(folder).parts[0] in ROOM_PARTS:
                self.files[path] = names_in(path)
                names |= self.files[path] | {path.stem, path.name}
            if path.suffix == '.rt':
                for name, lists in parameters(path.read_text()).items():
                    self.parameters[room][name] += lists
                    names.update(*lists)
        self.rooms[room] = names | set(self.answers[room]) | {room}

    def others(self):
        for folder in OTHER_FOLDERS:
            for path in (self.top / folder).rglob('*'):
                if path.is_file() and '__pycache__' not in path.parts:
                    self.anywhere |= names_in(path) | {path.stem, path.name}
        for path in self.top.iterdir():
            self.anywhere |= {path.name} | (names_in(path) if path.is_file() else set())

    def kit(self):
        """The rooms of the kit that crates.txt names: io, check."""
        text = re.sub(r'#.*', '', (self.top / 'crates.txt').read_text())
        self.anywhere |= set(re.findall(r'\w+', text))
