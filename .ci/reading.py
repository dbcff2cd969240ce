"""A second reader of documents, written from the grammar and the tables of docs/language.md and not from the program's code:
`first_fault` gives the status and the answer of the first fault of a text, or None where the text spells a document."""
import re

LIMITS = {'nesting', 'roles', 'nodes', 'labels', 'name', 'acts'}
SORTS = {b'unit', b'bool', b'nat', b'int', b'bytes', b'list'}
MOST_BYTES, MOST_ROLES, MOST_LABELS, MOST_TALKS, MOST_ACTS, MOST_NESTING = 1_048_576, 16, 256, 1_024, 256, 200
MOST_NODES, MOST_NAME, MOST_NUMBER, MOST_BOUND, MOST_PENDING, MOST_ROWS = 65_536, 64, 4_294_967_295, 64, 64, 1_024
GAP = re.compile(rb'(?:[ \t\r\n]|#[^\n]*)*')
TOKEN = re.compile(rb'(?P<word>[A-Za-z_][A-Za-z0-9_]*)|(?P<number>[0-9]+)|(?P<mark>->|[!?:.,{}()\[\]])')


class Fault(Exception):
    def __init__(self, kind, at):
        self.kind, self.at = kind, at


class Token:
    """Its kind is `word`, `number`, `end`, or the mark itself."""

    def __init__(self, kind, text, at, behind):
        self.kind, self.text, self.at, self.behind = kind, text, at, behind

    def is_name(self):
        return self.kind == 'word' and self.text not in (b'rec', b'end')


def token_at(text, place):
    """The token after the blanks and comments at the place; a faulty one is no token."""
    at = GAP.match(text, place).end()
    found = TOKEN.match(text, at)
    if found is None:
        if at < len(text):
            raise Fault('bad byte', at)
        return Token('end', b'', at, at)
    word = found[0]
    if found['word'] and len(word) > MOST_NAME:
        raise Fault('name', at)
    if found['number']:
        word = word.lstrip(b'0') or b'0'
        if len(word) > 10 or int(word) > MOST_NUMBER:
            raise Fault('number too large', at)
    return Token(found['mark'].decode() if found['mark'] else found.lastgroup, word, at, found.end())


class Reader:
    def __init__(self, text):
        self.text, self.place, self.kept = text, 0, None
        self.roles, self.labels, self.nodes = [], set(), 0

    def peek(self):
        if self.kept is None:
            self.kept = token_at(self.text, self.place)
        return self.kept

    def next(self):
        token = self.peek()
        self.place, self.kept = token.behind, None
        return token

    def want(self, wanted, is_wanted):
        """The next token, which must be one of those that are wanted."""
        if not is_wanted(self.peek()):
            raise Fault('expected ' + wanted, self.peek().at)
        return self.next()

    def mark(self, *marks, wanted=None):
        return self.want(wanted or marks[0], lambda token: token.kind in marks).kind

    def word(self, text):
        return self.want(text.decode(), lambda token: token.kind == 'word' and token.text == text)

    def number(self):
        return int(self.want('number', lambda token: token.kind == 'number').text)

    def known(self, token):
        if token.text not in self.roles:
            raise Fault('unknown role', token.at)
        return token.text

    def role(self):
        return self.known(self.want('role', Token.is_name))

    def label(self):
        token = self.want('label', lambda token: token.kind == 'word')
        if token.text not in self.labels and len(self.labels) == MOST_LABELS:
            raise Fault('labels', token.at)
        self.labels.add(token.text)

    def sort_in_parentheses(self):
        self.mark('(')
        token = self.want('sort or )', lambda token: token.kind == ')' or token.kind == 'word' and token.text in SORTS)
        if token.kind == 'word':
            self.mark(')')

    def read_roles(self):
        self.word(b'roles')
        while True:
            token = self.want('role', Token.is_name)
            if token.text in self.roles:
                raise Fault('name twice', token.at)
            if len(self.roles) == MOST_ROLES:
                raise Fault('roles', token.at)
            self.roles.append(token.text)
            if len(self.roles) == 1:
                self.mark(',')
            elif self.want(', or protocol', lambda token: token.kind == ',' or token.text == b'protocol').kind != ',':
                return

    def deeper(self, nesting, token):
        if nesting == MOST_NESTING:
            raise Fault('nesting', token.at)
        return nesting + 1

    def read_body(self, is_machine, names, nesting, passed):
        """A body of the protocol or of a machine; `names` has how many talks or acts were passed at each name's `rec`."""
        while True:
            token = self.want('body', lambda token: token.kind == 'word')
            if token.text == b'end':
                return
            if token.text == b'rec':
                nesting = self.deeper(nesting, token)
                name = self.want('name', Token.is_name).text
                self.mark('.')
                names = {**names, name: passed}
                continue
            if self.peek().kind not in (('!', '?') if is_machine else ('->',)):
                if token.text not in names:
                    raise Fault('unbound name', token.at)
                if names[token.text] == passed:
                    raise Fault('unguarded name', token.at)
                return
            self.known(token)
            if self.nodes == (MOST_ACTS if is_machine else MOST_TALKS):
                raise Fault('nodes', token.at)
            self.nodes += 1
            self.next()
            brace = self.brace_behind(is_machine)
            if brace is None:
                self.read_arm()
                passed += 1
                continue
            inner = self.deeper(nesting, brace)
            while True:
                self.read_arm()
                self.read_body(is_machine, names, inner, passed + 1)
                if self.mark(',', '}', wanted=', or }') == '}':
                    return

    def brace_behind(self, is_machine):
        """The brace after the arrow and its role, or after the mark of a machine; None if there is one arm without braces."""
        if is_machine and self.peek().kind == 'word':
            return None
        if is_machine:
            return self.want('label or {', lambda token: token.kind == '{')
        self.role()
        token = self.want(': or {', lambda token: token.kind in (':', '{'))
        return token if token.kind == '{' else None

    def read_arm(self):
        self.label()
        self.sort_in_parentheses()
        self.mark('.')

    def read_act(self, wanted, count):
        """An act with that number of acts before it in its list."""
        token = self.want(wanted, Token.is_name)
        self.known(token)
        if count == MOST_PENDING:
            raise Fault('acts', token.at)
        self.mark('!', '?', wanted='! or ?')
        self.label()
        self.sort_in_parentheses()

    def read_acts(self):
        self.mark('[')
        if self.peek().kind == ']':
            return self.next()
        self.read_act('act or ]', 0)
        count = 1
        while self.mark(',', ']', wanted=', or ]') == ',':
            self.read_act('role', count)
            count += 1

    def read_lists(self):
        """The lists of format 2, as far as the number of the first node; how many there are."""
        count, wanted, in_list = 0, 'pending or node', 0
        while True:
            token = self.want(wanted, lambda token: in_list and token.kind == ',' or token.kind == 'word' and token.text == b'pending' or token.kind == 'number' and int(token.text) == 0)
            if token.kind == 'number':
                return count
            if token.kind == 'word':
                count, in_list = count + 1, 0
                self.want('pending number', lambda token: token.kind == 'number' and int(token.text) == count)
                self.mark(':')
            self.read_act('role', in_list)
            wanted, in_list = ', pending or node', in_list + 1

    def read_numbers(self):
        self.mark('[')
        if self.want('number or ]', lambda token: token.kind in ('number', ']')).kind == ']':
            return
        while self.mark(',', ']', wanted=', or ]') == ',':
            self.number()

    def has_further(self, wanted, count, most):
        """The number of a further node or row, after that number of them, or the end of all."""
        token = self.want(wanted + ' or }' if count else wanted, lambda token: count and token.kind == '}' or token.kind == 'number' and int(token.text) == count)
        if token.kind == 'number' and count == most:
            raise Fault('nodes', token.at)
        return token.kind == 'number'

    def read_nodes(self, lists=None):
        """The nodes of format 1, or those of format 2 after that number of lists and the number of the first node."""
        count = 0
        while True:
            if (lists is None or count) and not self.has_further('node', count, MOST_NODES):
                return
            count += 1
            self.mark(':')
            self.number()
            if lists is None:
                self.read_acts()
            else:
                self.word(b'with')
                self.want('pending number', lambda token: token.kind == 'number' and int(token.text) <= lists)
                self.word(b'above')
            self.number()
            self.word(b'rank')
            self.number()
            self.word(b'next')
            self.read_numbers()

    def read_table(self):
        self.mark('{')
        count = 0
        while True:
            if not self.has_further('state', count, MOST_ROWS):
                return
            count += 1
            token = self.want('role or end', lambda token: token.is_name() or token.text == b'end')
            if token.text == b'end':
                continue
            self.known(token)
            self.mark('!', '?', wanted='! or ?')
            self.mark('{')
            while True:
                self.label()
                self.sort_in_parentheses()
                self.want('next state', lambda token: token.kind == 'number')
                if self.mark(',', '}', wanted=', or }') == '}':
                    break

    def new_role(self, seen):
        token = self.want('role', Token.is_name)
        if self.known(token) in seen:
            raise Fault('name twice', token.at)
        seen.add(token.text)

    def read_document(self):
        self.read_roles()
        self.read_body(False, {}, 0, 0)
        machines, derivations = set(), set()
        while True:
            wanted = 'derivation or the end' if derivations else 'machine, table, derivation or the end'
            known = (b'derivation',) if derivations else (b'machine', b'table', b'derivation')
            token = self.want(wanted, lambda token: token.kind == 'end' or token.kind == 'word' and token.text in known)
            if token.kind == 'end':
                return
            if token.text == b'machine':
                self.new_role(machines)
                self.mark(':')
                self.nodes = 0
                self.read_body(True, {}, 0, 0)
            elif token.text == b'table':
                self.new_role(machines)
                self.read_table()
            else:
                self.new_role(derivations)
                has_lists = self.want('bound or format', lambda token: token.kind == 'word' and token.text in (b'bound', b'format')).text == b'format'
                if has_lists:
                    self.want('2', lambda token: token.kind == 'number' and int(token.text) == 2)
                    self.word(b'bound')
                self.want('number from 1 to 64', lambda token: token.kind == 'number' and 1 <= int(token.text) <= MOST_BOUND)
                self.mark('{')
                self.read_nodes(self.read_lists() if has_lists else None)


def first_fault(text):
    if len(text) > MOST_BYTES:
        return 5, b'too large: text\n'
    try:
        Reader(text).read_document()
    except Fault as fault:
        if fault.kind in LIMITS:
            return 5, f'too large: {fault.kind}\n'.encode()
        line, column = text.count(b'\n', 0, fault.at) + 1, fault.at - (text.rfind(b'\n', 0, fault.at) + 1) + 1
        return 3, f'malformed {line}:{column} {fault.kind}\n'.encode()
    return None
