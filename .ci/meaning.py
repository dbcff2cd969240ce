"""A second reading of what a document means, written from the rules of docs/language.md and docs/definitions.md and not from the
program's code: `answer` gives what `check` answers to a document without faults of grammar and names, and `run` what `run` does."""
import functools, re, sys

sys.setrecursionlimit(1_000_000)
TOKEN = re.compile(r'->|[A-Za-z_]\w*|\d+|[(){}:,.!?]')
MOST_CANDIDATES, MOST_CAPACITY = 65_536, 1_024


class Refused(Exception):
    """The first reason why the document is refused: the status, and the lines of the answer."""

    def __init__(self, status, *lines):
        self.status, self.lines = status, lines


class Reader:
    """Reads tokens; the text has no fault."""

    def __init__(self, text):
        self.tokens, self.at = TOKEN.findall(re.sub(r'#[^\n]*', '', text)), 0

    def peek(self):
        return self.tokens[self.at] if self.at < len(self.tokens) else None

    def take(self, wanted=None):
        token = self.peek()
        if wanted not in (None, token):
            raise ValueError(f'{wanted} is wanted, and {token} comes')
        self.at += 1
        return token

    def message(self):
        label, sort = self.take(), 'unit'
        self.take('(')
        if self.peek() != ')':
            sort = self.take()
        self.take(')')
        return label, sort

    def list_of(self, item):
        items = [item()]
        while self.peek() == ',':
            self.take()
            items.append(item())
        return items


class Body:
    """The nodes of a protocol, or of a machine's body, in order of text: each has a head (two roles, or a peer and a mark) and arms
    of a label, a sort and the next node. The end has the number behind the last node."""

    def __init__(self, reader):
        self.reader, self.nodes, self.names = reader, [], {}
        root = self.read({})
        self.end = len(self.nodes)
        self.root = self.number_of(root)
        self.nodes = [(head, [(label, sort, self.number_of(place)) for label, sort, place in arms]) for head, arms in self.nodes]

    def number_of(self, place):
        """A place is a node's number, the end (None), or a cell with the place to which a name goes back."""
        while isinstance(place, list):
            place = place[0]
        return self.end if place is None else place

    def read(self, names):
        take = self.reader.take
        word = take()
        if word == 'end':
            return None
        if word == 'rec':
            name, cell = take(), [None]
            take('.')
            cell[0] = self.read({**names, name: cell})
            return cell[0]
        if self.reader.peek() not in ('->', '!', '?'):
            return names[word]
        mark = take()
        head = (word, take()) if mark == '->' else (word, mark)
        number = len(self.nodes)
        self.nodes.append(None)
        if self.reader.peek() == ':':
            take()
        if self.reader.peek() == '{':
            take()
            arms = self.reader.list_of(lambda: self.arm(names))
            take('}')
        else:
            arms = [self.arm(names)]
        self.nodes[number] = (head, arms)
        return number

    def arm(self, names):
        label, sort = self.reader.message()
        self.reader.take('.')
        return label, sort, self.read(names)


class State:
    """A state of a machine that sends ('!') or receives ('?'), with its peer and its arms; the end is None."""

    def __init__(self, mark, peer, arms):
        self.mark, self.peer, self.arms = mark, peer, arms


def numbered(states, start):
    """The states that the start reaches, in order of discovery."""
    order, place = [start], {start: 0}
    for state in order:
        for _, _, after in states[state].arms if states[state] else ():
            if after not in place:
                place[after] = len(order)
                order.append(after)
    return [states[at] and State(states[at].mark, states[at].peer, [(label, sort, place[after]) for label, sort, after in states[at].arms]) for at in order]


def machine_of(body):
    return numbered([State(mark, peer, arms) for (peer, mark), arms in body.nodes] + [None], body.root)


def table_of(reader):
    """The states of a table, as they are numbered there."""
    reader.take('{')
    states = []
    while reader.peek() != '}':
        reader.take()
        peer = reader.take()
        if peer == 'end':
            states.append(None)
            continue
        mark = reader.take()
        reader.take('{')
        states.append(State(mark, peer, reader.list_of(lambda: (*reader.message(), int(reader.take())))))
        reader.take('}')
    reader.take('}')
    return states


class Document:
    def __init__(self, text):
        reader = Reader(text)
        reader.take('roles')
        self.roles = reader.list_of(reader.take)
        reader.take('protocol')
        self.protocol, self.machines = Body(reader), {}
        while reader.peek():
            kind, role = reader.take(), reader.take()
            if kind == 'table':
                self.machines[role] = table_of(reader)
            else:
                reader.take(':')
                self.machines[role] = machine_of(Body(reader))

    def session(self):
        """The projections and the machines, in role order."""
        projections = [Projection(self.protocol, role).states for role in self.roles]
        return projections, [self.machines.get(role, projection) for role, projection in zip(self.roles, projections)]


class Projection:
    """The projection of a protocol onto a role. A member is a node's number, or the number after that of the end for Done."""

    def __init__(self, protocol, role):
        self.nodes, self.end, self.role = protocol.nodes, protocol.end, role
        self.done = self.end + 1
        self.is_idle = {}
        self.refuse_unreached(protocol.root)
        first = self.front(protocol.root)
        sets, place, self.states = [first], {first: 0}, []
        for members in sets:
            self.states.append(self.state_of(sorted(members), sets, place))

    def nexts(self, node):
        return [] if node == self.end else [after for _, _, after in self.nodes[node][1]]

    def involves(self, node):
        return node != self.end and self.role in self.nodes[node][0]

    def reached(self, starts, goes_by=lambda node: True):
        """The starts, and what they lead to by nodes for which this holds."""
        found, work = set(starts), list(starts)
        while work:
            node = work.pop()
            for after in self.nexts(node) if goes_by(node) else ():
                if after not in found:
                    found.add(after)
                    work.append(after)
        return found

    def idle(self, node):
        if node not in self.is_idle:
            self.is_idle[node] = not any(self.involves(it) for it in self.reached([node]))
        return self.is_idle[node]

    def passes(self, node):
        return not self.involves(node) and not self.idle(node)

    def refuse_unreached(self, root):
        passing = sorted(node for node in self.reached([root]) if self.passes(node))
        for node in passing:
            around = self.reached([it for it in self.nexts(node) if self.passes(it)], self.passes)
            if node in around:
                raise Refused(4, 'unprojectable', f'{self.role}: unreached at node {node}')

    def front(self, node):
        met = self.reached([node], self.passes)
        return frozenset({it for it in met if self.involves(it)} | ({self.done} if any(self.idle(it) for it in met) else set()))

    def kind(self, node):
        """The mark and the peer of the role at a node that involves it."""
        sender, receiver = self.nodes[node][0]
        return ('!', receiver) if sender == self.role else ('?', sender)

    def clash(self, one, other):
        if self.done in (one, other):
            return one != other
        ours, theirs = ({label: sort for label, sort, _ in self.nodes[it][1]} for it in (one, other))
        if self.kind(one) != self.kind(other) or any(theirs.get(label, sort) != sort for label, sort in ours.items()):
            return True
        return self.kind(one)[0] == '!' and set(ours) != set(theirs)

    def state_of(self, members, sets, place):
        for at, later in enumerate(members):
            for earlier in members[:at]:
                if self.clash(earlier, later):
                    one = f'node {earlier} and the end' if later == self.done else f'nodes {earlier} and {later}'
                    raise Refused(4, 'unprojectable', f'{self.role}: {one} do not merge')
        if members == [self.done]:
            return None
        sorts, after = {}, {}
        for node in members:
            for label, sort, following in self.nodes[node][1]:
                sorts.setdefault(label, sort)
                after.setdefault(label, set()).update(self.front(following))
        arms = []
        for label, sort in sorts.items():
            members_after = frozenset(after[label])
            if members_after not in place:
                place[members_after] = len(sets)
                sets.append(members_after)
            arms.append((label, sort, place[members_after]))
        return State(*self.kind(members[0]), arms)


def serves(sort, other):
    return sort == other or (sort, other) == ('nat', 'int')


class Search:
    """The canonical derivation of a machine from a projection within a bound. A spot is (state, pending, projection's state); a
    pending act is (mark, peer, label, sort)."""

    def __init__(self, role, machine, projection, bound):
        self.machine, self.projection, self.bound, self.is_cut = machine, projection, bound, False
        spots, known, moves = [(0, (), 0)], {(0, (), 0)}, {}
        for spot in spots:
            moves[spot] = self.moves(spot)
            for result in (it for move in moves[spot] for it in move):
                if result not in known:
                    known.add(result)
                    spots.append(result)
            if len(spots) > MOST_CANDIDATES:
                raise Refused(5, f'too large: candidates {role}')
        left = set(spots)
        while gone := {spot for spot in left if not any(left.issuperset(move) for move in moves[spot])}:
            left -= gone
        if spots[0] not in left:
            raise Refused(1, 'refused', f'{role}: not found, cut {"yes" if self.is_cut else "no"}')
        self.nodes, self.edges, place = [spots[0]], [], {spots[0]: 0}
        for spot in self.nodes:
            move = next(move for move in moves[spot] if left.issuperset(move))
            for result in move:
                if result not in place:
                    place[result] = len(self.nodes)
                    self.nodes.append(result)
            self.edges.append([place[result] for result in move])
        self.refuse_cycles(role)

    def moves(self, spot):
        """Each move is the list of its results; a guess is one move for each arm."""
        state, pending, above = spot
        ours, theirs = self.machine[state], self.projection[above]
        if ours is None:
            return [[]] if not pending and theirs is None else []
        earliest = next((at for at, act in enumerate(pending) if act[:2] == (ours.mark, ours.peer)), None)
        if earliest is not None:
            _, _, label, sort = pending[earliest]
            left = pending[:earliest] + pending[earliest + 1:]
            if ours.mark == '!':
                fits = [after for it, its, after in ours.arms if it == label and serves(its, sort)] if len(ours.arms) == 1 else []
            elif any(act[0] == '!' for act in pending[:earliest]):
                fits = []
            else:
                fits = [after for it, its, after in ours.arms if it == label and serves(sort, its)]
            return [[(fits[0], left, above)]] if fits else []
        if theirs is None or ours.mark == '?' and (theirs.mark == '!' or any(act[0] == '!' for act in pending)):
            return []
        if ours.mark == theirs.mark == '!' and ours.peer == theirs.peer:
            known = {label: (sort, after) for label, sort, after in theirs.arms}
            if not all(label in known and serves(sort, known[label][0]) for label, sort, _ in ours.arms):
                return []
            return [[(after, pending, known[label][1]) for label, _, after in ours.arms]]
        if len(pending) == self.bound:
            self.is_cut = True
            return []
        results = [(state, (*pending, (theirs.mark, theirs.peer, label, sort)), after) for label, sort, after in theirs.arms]
        return [[result] for result in results] if theirs.mark == '!' else [results]

    def kept(self, node):
        """The next nodes by edges that leave the oldest pending act undone."""
        pending = self.nodes[node][1]
        return [after for after in self.edges[node] if pending and self.nodes[after][1] != pending[1:]]

    def refuse_cycles(self, role):
        for node in range(len(self.nodes)):
            around, work = set(), self.kept(node)
            while work:
                after = work.pop()
                if after not in around:
                    around.add(after)
                    work += self.kept(after)
            if node in around:
                raise Refused(1, 'refused', f'{role}: forgets at node {node}')

    @functools.cached_property
    def longest(self):
        return max(len(pending) for _, pending, _ in self.nodes)

    @functools.cached_property
    def top_rank(self):
        rank = functools.cache(lambda node: max((1 + rank(after) for after in self.kept(node)), default=0))
        return max(rank(node) for node in range(len(self.nodes)))


def derived(document, bound=16):
    """The machines, the derivations and the room."""
    projections, machines = document.session()
    found = [Search(role, machine, projection, bound) for role, machine, projection in zip(document.roles, machines, projections)]
    return machines, found, 1 + max(it.longest for it in found) + max(it.longest * (it.top_rank + 1) for it in found)


def answer(text, bound=16):
    """The status of `check` and the lines of its answer."""
    document = Document(text)
    try:
        _, found, room = derived(document, bound)
    except Refused as refused:
        return refused.status, list(refused.lines)
    lines = [f'{role}: nodes {len(it.nodes)} pending {it.longest} rank {it.top_rank}' for role, it in zip(document.roles, found)]
    return 0, ['accepted', *lines, f'room {room}']


def tables(text):
    """The lines of `project`."""
    document, lines = Document(text), []
    for role, states in zip(document.roles, document.session()[0]):
        lines.append(f'table {role} {{')
        for number, state in enumerate(states):
            arms = state and ', '.join(f'{label}({"" if sort == "unit" else sort}) {after}' for label, sort, after in state.arms)
            lines.append(f'{number} {state.peer}{state.mark}{{{arms}}}' if state else f'{number} end')
        lines.append('}')
    return lines


class Drawing:
    """The choices and the values of one role of a run."""

    def __init__(self, seed):
        self.number = seed % 2**31

    def draw(self):
        self.number = (self.number * 1_103_515_245 + 12_345) % 2**31
        return self.number // 65_536

    def value(self, sort):
        """The value as a transcript shows it."""
        if sort == 'unit':
            return ''
        if sort == 'bool':
            return '(true)' if self.draw() % 2 else '(false)'
        if sort in ('nat', 'int'):
            return f'({self.draw() - (16_384 if sort == "int" else 0)})'
        length = self.draw() % 5
        if sort == 'bytes':
            return f'({bytes(self.draw() % 256 for _ in range(length)).hex()})'
        return f'([{",".join(str(self.draw() - 16_384) for _ in range(length))}])'


class RunAct:
    """An act of a run: who sends or receives, by which mark, with whom, which label of which sort, with which value as a transcript
    shows it, and how many messages the queue holds after it."""

    def __init__(self, role, mark, peer, label, sort, value, waiting):
        self.role, self.mark, self.peer, self.label, self.sort, self.value, self.waiting = role, mark, peer, label, sort, value, waiting

    def queue(self):
        return (self.role, self.peer) if self.mark == '!' else (self.peer, self.role)

    def word(self):
        """The act as a transcript writes it."""
        return f'{self.peer}{self.mark}{self.label}{self.value if self.mark == "?" else ""}'


def run_acts(text, seed=0, limit=1_000, bound=16, ring=None):
    """The acts of a run on one thread in their order, and how it ended: `ended`, `stopped` and a role, or `full`, a sender and a
    receiver. Queues hold as many messages as the ring says, or as the room."""
    document = Document(text)
    machines, _, room = derived(document, bound)
    roles, capacity = document.roles, ring or min(room, MOST_CAPACITY)
    drawings, at = [Drawing(seed + place) for place in range(len(roles))], [0] * len(roles)
    made, acts, queues = [0] * len(roles), [], {}
    while any(machine[state] for machine, state in zip(machines, at)):
        before = len(acts)
        for place, role in enumerate(roles):
            state = machines[place][at[place]]
            if state is None:
                continue
            if made[place] == limit:
                return acts, ('stopped', role)
            queue = queues.setdefault((role, state.peer) if state.mark == '!' else (state.peer, role), [])
            if state.mark == '!' and len(queue) < capacity:
                label, sort, at[place] = state.arms[drawings[place].draw() % len(state.arms)]
                value = drawings[place].value(sort)
                queue.append((label, value))
            elif state.mark == '?' and queue:
                label, value = queue.pop(0)
                sort, at[place] = next((sort, after) for it, sort, after in state.arms if it == label)
            else:
                continue
            made[place] += 1
            acts.append(RunAct(role, state.mark, state.peer, label, sort, value, len(queue)))
        if len(acts) == before:
            return acts, next(('full', role, machine[state].peer) for role, machine, state in zip(roles, machines, at) if machine[state] and machine[state].mark == '!')
    return acts, ('ended',)


def run(text, seed=0, limit=1_000, bound=16):
    """The status of `run` on one thread over queues of the room, and the lines of its answer."""
    try:
        acts, end = run_acts(text, seed, limit, bound)
    except Refused as refused:
        return refused.status, list(refused.lines)
    if end[0] == 'stopped':
        return 9, [f'stopped {end[1]}']
    lines = {role: f'{role}:' for role in Document(text).roles}
    for act in acts:
        lines[act.role] += f' {act.word()}'
    return 0, ['ended', *lines.values()]
