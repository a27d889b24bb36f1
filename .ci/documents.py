"""The names in the documents' backquotes: are they defined where the documents say? .ci/test-docs has the rules."""
import re

STATEMENTS = 'docs/STATEMENTS.md'
VOTERS = ['confirm', 'vote', 'tuple', 'reserve']
# words of the kit and its language, the letters of a listing, what a program reads and writes, the room that was parted
OUTSIDE = {'rt', 'requires', 'ensures', 'result', 'Learnt', 'Reads', 'tt', 'zip', 'get_or', 'C', 'A', 'H', 'N', 'v'}
OUTSIDE |= {'--', 'x86_64', 'stdin', 'stdout', 'vectors', 'scorve_', 'memset', '01-scope.md'}
TOKEN = re.compile(r'`([^`\n]+)`')
LIST = r'((?:`[^`]+`(?:, and |, | and ))*`[^`]+`)'
QUALIFIED = re.compile(LIST + r',? (?:\(|of |in )(?:' + LIST + r"|each voter(?!'))")
DETERMINED = re.compile(r'etermined by ' + LIST)


def prose_lines(text):
    """(number, line) of each line that is no code: not between fences, nor indented by four after an empty line."""
    fenced = code = False
    before = ''
    for number, line in enumerate(text.split('\n'), 1):
        if line.lstrip().startswith('```'):
            fenced = not fenced
        code = line.startswith('    ') and (code or not before.strip())
        if not fenced and not code:
            yield number, line
        before = line


def sections(text):
    """(rooms of the heading, text) of each part; a paragraph that is wrapped is one line in it."""
    rooms, lines = [], []
    for _, line in prose_lines(text):
        if line.startswith('## '):
            yield rooms, ' '.join(lines)
            rooms, lines = TOKEN.findall(line), []
        lines.append(line.strip())
    yield rooms, ' '.join(lines)


def spelt_out(name):
    """The names that VOTER stands for; after a small letter it is capital, as in MakesVOTER."""
    if 'VOTER' not in name:
        return [name]
    return [re.sub(r'(?<=[a-z])VOTER', voter.capitalize(), name).replace('VOTER', voter) for voter in VOTERS]


class Names:
    """Of the documents of a project; `complaints` is the whole of it."""

    def __init__(self, project):
        self.project, self.top = project, project.top
        self.answers = {'%s/%s' % (room, a) for room, answers in project.answers.items() for a in answers}

    def room(self, path):
        return path.relative_to(self.top / 'crates').parts[0]

    def scope(self, token, rooms):
        """The names of a room or of a file (of the section's rooms, if it has some); None if the token is neither."""
        if token in self.project.rooms:
            return self.project.rooms[token]
        if not token.endswith(('.antt', '.rt')):
            return None
        where = [p for p in self.project.files if str(p).endswith('/' + token)]
        near = [p for p in where if self.room(p) in rooms]
        return set().union(*(self.project.files[p] for p in near or where))

    def scopes_of_names(self, text, rooms):
        """(name, place, scope) of each name that stands with its room or file, for each of the places."""
        for match in QUALIFIED.finditer(text):
            names, places = TOKEN.findall(match[1]), TOKEN.findall(match[2]) if match[2] else VOTERS
            scopes = [(place, self.scope(place, rooms)) for place in places]
            for place, scope in scopes:
                if scope is not None and scopes[0][1] is not None:
                    yield from ((name, place, scope) for name in names)
        files = [p for p in self.project.files if p.name.startswith('Unique') and self.room(p) in rooms]
        unique = set().union(*(self.project.files[p] for p in files))
        for match in DETERMINED.finditer(text) if rooms else ():
            yield from ((name, 'Unique.antt', unique) for name in TOKEN.findall(match[1]))

    def is_path(self, document, path):
        """From the top, in a crate, beside the document, or a wrong answer. What is made or installed is not there yet."""
        places = [self.top, self.top / 'crates', (self.top / document).parent, *(self.top / 'crates').iterdir()]
        made = re.match(r'crates/(\w+)/out/', path)
        if path.startswith(('target/', 'PREFIX/', '/')) or path in self.answers or (made and made[1] in self.project.rooms):
            return True
        return any(list(place.glob(path)) if '*' in path else (place / path).exists() for place in places)

    def is_defined(self, name, rooms):
        """In the section's rooms, or, where it has none, anywhere. An option with one dash is another program's."""
        if name in OUTSIDE or name in self.project.rooms or re.match(r'-[^-]', name):
            return True
        return any(name in self.project.rooms[r] for r in rooms) if rooms else name in self.project.anywhere

    def wrong_call(self, name, inside, rooms):
        """The parameters of a call are not those of any function of that name."""
        lists = [l for r in rooms for l in self.project.parameters[r][name]]
        told = [p.strip() for p in inside.split(',') if p.strip()]
        if not lists or '..' in told:
            return not lists or not any(set(told) - {'..'} <= set(l) for l in lists)
        return told not in lists

    def token_errors(self, document, token, rooms, elsewhere):
        call = re.fullmatch(r'((?:\w+::)*)(\w+)(?:\((.*)\))?', token)
        file = re.fullmatch(r'[\w-]+\.(?:antt|rt|py|c|h|rs|md|txt)', token)
        if re.fullmatch(r'[\w.*-]*/[\w./*-]*', token):
            if not self.is_path(document, token):
                yield '%s, which is no path' % token
        elif file:
            if not self.is_path(document, token) and not self.is_defined(token, rooms):
                yield '%s, which is no file %s' % (token, 'of ' + ' or '.join(rooms) if rooms else 'here')
        elif re.fullmatch(r"[\w'-]+", token) or (call and (call[1] or call[3] is not None)):
            yield from self.name_errors(token, call, rooms, elsewhere)
        else:
            yield from self.formula_errors(document, token)

    def name_errors(self, token, call, rooms, elsewhere):
        path = call[1].split('::')[:-1] if call else []
        if path and path[0] in self.project.rooms:
            rooms = [path[0]]
        elif path and path[0] == 'libc':
            return
        for name in path + spelt_out(call[2] if call else token):
            if name not in elsewhere and not self.is_defined(name, rooms):
                yield '%s, which is not defined %s' % (name, 'in ' + ' or '.join(rooms) if rooms else 'anywhere')
            elif rooms and call and call[3] is not None and name not in path and self.wrong_call(name, call[3], rooms):
                yield '%s, whose parameters are others' % token

    def formula_errors(self, document, token):
        """Words with a capital inside or in front or a line inside, and paths, in what is neither a name nor a call."""
        for word in re.findall(r"(?<![\w./-])(?:[A-Za-z]+[A-Z]\w*|[A-Z][a-z]\w+|[A-Za-z]\w*_\w+)", token):
            for name in spelt_out(word):
                if not self.is_defined(name, []) and not name.isupper() and name not in ('Tm', 'TM'):
                    yield '%s in `%s`, which is not defined anywhere' % (name, token)
        for path in re.findall(r'(?<!\S)(?:\./)?[\w.*-]+/[\w./*-]+(?!\S)', token):
            if not self.is_path(document, path):
                yield '%s, which is no path' % path

    def complaints(self, document, text):
        statements = document == STATEMENTS
        for rooms, part in sections(text):
            rooms = [r for r in rooms if statements and r in self.project.rooms]
            elsewhere = set()
            for name, place, scope in self.scopes_of_names(part, rooms):
                elsewhere.add(name)
                plain = re.sub(r'\(.*', '', name).split('::')[-1]
                if re.fullmatch(r"[\w'-]+", plain) and not all(n in scope or n in OUTSIDE for n in spelt_out(plain)):
                    yield '%s, which is not defined in %s' % (name, place)
            for token in dict.fromkeys(TOKEN.findall(part)):
                if token not in elsewhere or '(' in token:
                    yield from self.token_errors(document, token, rooms, elsewhere)
