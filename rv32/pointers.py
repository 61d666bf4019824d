"""pointers.py MODULE.ll: that the kept module may be compiled with pointers of 4 bytes.

A pointer then fills 4 of the 8 bytes that the module leaves for it, at the same place (rv32/to32.py sees to that). This is harmless as long as nobody reads or writes
these 8 bytes as anything else. Each exported function is followed with all that it calls, each call by itself as if the called function stood there, and for each pointer
it is found out where it may lead: into which variable, which constant or which bytes that C lends, and how far into it. Then:

- Each place has the types by which it is read or written; a copy makes two places one. No place is used both as a pointer and as a number.
- Zeros are written over all 8 bytes of a pointer or over none, and all of them are copied or none: so it is null, or the same, with 4 bytes too.
- A local variable that is a pointer has 4 bytes and no more, and nothing may go beyond. (Zeros over it by its own name are 4 on the target.)
- Where a pointer is moved by a number, as to an element of a slice, it may be anywhere in its variable; then no pointer may lie in that variable.
- What C lends is read and written by single bytes, and copied, and no pointer is put there. A constant holds no pointer, and nobody writes it.
- Pointers are compared with null alone, in exported functions alone: for a null, which has the length 0, the kit puts address 4096, which nobody follows. The answer
  is used for nothing else. No function comes back to itself.

Order and paths are not looked at, so what is found may be harmless, but what is not found is not there."""
import re
from collections import defaultdict

from forms import V, WIDTH, Refused, lines, parts, run

WIDTH_32 = {**WIDTH, 'ptr': 4}  # what the target takes
ANYWHERE = None  # an offset that is not known


class Function:
    def __init__(self, match, exported):
        self.name, self.exported, self.type = match['name'], exported, match['type']
        self.types, self.parameters = typed(match['parameters'])
        self.steps = []  # what it does with pointers: kind of step, line, and what the step is about
        self.calls = set()


def typed(text):
    """The types of parameters or arguments; and of each that is a pointer its name, of others None."""
    words = [value.split() for value in text.split(', ') if value]
    return [w[0] for w in words], [w[-1] if w[0] == 'ptr' else None for w in words]


def read(path):
    """The functions of the module, and the sizes of its constants."""
    functions, constants = {}, {}
    function, nulls, pointers = None, {}, set()
    for number, kind, match, text in lines(path):
        if kind in ('exported', 'internal'):
            function = functions[match['name']] = Function(match, kind == 'exported')
            nulls = {}  # in an exported function: the steps from the question whether a parameter is null to the address that is put for it
            pointers = set()  # local variables that are pointers
        elif kind == 'constant':
            constants[match['name']] = int(match['size'])
        else:
            read_line(function, nulls, pointers, number, kind, match, text)
    return functions, constants


def read_line(function, nulls, pointers, number, kind, match, text):
    def step(name):
        return nulls.get(name, (None, None))[1]

    def does(kind, *about):
        function.steps.append((kind, number, *about))

    if kind == 'is null':
        if not function.exported:
            raise Refused('line %d: a pointer is compared: %s' % (number, text))
        nulls[match['to']] = (match['of'], 'asked')
    elif kind == 'wider' and step(match['of']) == 'asked':
        nulls[match['to']] = (nulls[match['of']][0], 'number')
    elif kind == 'arithmetic' and step(match['of']) == 'number' and (match['what'], match['by']) == ('mul', '4096'):
        nulls[match['to']] = (nulls[match['of']][0], 'moved')
    elif kind == 'moved' and function.exported:
        if nulls.get(match['by']) != (match['of'], 'moved'):
            raise Refused('line %d: pointer arithmetic: %s' % (number, text))
        does('move', match['to'], match['of'], 0)
    elif nulls.keys() & set(re.findall(V, text)):
        raise Refused('line %d: whether a pointer is null is used otherwise: %s' % (number, text))
    elif kind == 'local':
        if match['type'] == 'ptr':
            pointers.add(match['to'])
        does('local', match['to'], *([int(match['bytes'])] * 2 if match['bytes'] else [WIDTH[match['type']], WIDTH_32[match['type']]]))
    elif kind == 'place':
        does('move', match['to'], match['of'], int(match['by']))
    elif kind in ('element', 'moved'):
        does('move', match['to'], match['of'], ANYWHERE)
    elif kind == 'load':
        does('load', match['to'], match['at'], parts(match['type']))
    elif kind == 'store':
        does('use', match['at'], match['type'])
    elif kind == 'store of a pointer':
        does('store', match['at'], match['value'])
    elif kind == 'copy':
        does('copy', match['into'], match['of'], int(match['length']))
    elif kind == 'zeros':
        own = match['into'] in pointers and match['length'] == '8'
        does('zeros', match['into'], int(match['length']), 4 if own else int(match['length']))
    elif kind == 'filled':  # each byte is written as a number
        does('fill', match['into'], int(match['length']))
    elif kind == 'call':
        types, arguments = typed(match['arguments'])
        function.calls.add((match['name'], match['type'], *types))
        does('call', match['to'], parts(match['type']), match['name'], arguments)
    elif kind == 'part':
        does('part', match['to'], match['of'], int(match['index']))
    elif kind == 'return' and 'ptr' in (match['type'] or ''):
        does('return', match['of'])


class Object:
    """A local variable, a constant, or bytes that C lends. Offsets are those of the module."""

    def __init__(self, name, kind, size=0, here=0):
        self.name, self.kind = name, kind
        self.size, self.here = size, here  # in the module, and on the target
        self.leads = defaultdict(set)  # offset -> where the pointer there may lead
        self.types = defaultdict(dict)  # offset -> type -> the first line that uses it so
        self.together = {}  # (offset, length) -> what is done with these bytes in one

    def moved(self, offset, by, number):
        if self.kind == 'lent' or ANYWHERE in (offset, by):
            return ANYWHERE
        if offset + by > self.size:
            raise Refused('line %d: a pointer leads behind %s' % (number, self.name))
        return offset + by

    def found(self, offset):
        """Where the pointer at an offset may lead."""
        if offset is ANYWHERE:
            return set().union(*self.leads.values())
        return self.leads.get(offset, set()) | self.leads.get(ANYWHERE, set())

    def used(self, offset, length, number, written):
        """So many bytes of the target are read or written."""
        if self.kind == 'constant' and written:
            raise Refused('line %d: the constant %s is written' % (number, self.name))
        if self.kind != 'lent' and (self.here < self.size if offset is ANYWHERE else self.here < offset + length):
            raise Refused('line %d: %s: has %d bytes on the target, and %d are used %s' % (number, self.name, self.here, length, where(offset)))

    def check(self):
        pointers = [offset for offset, types in self.types.items() if 'ptr' in types]
        for offset, types in self.types.items():
            for kind, number in types.items():
                self.check_type(offset, kind, number, pointers)
        for (offset, length), what in self.together.items():
            for pointer in pointers:
                if offset is ANYWHERE or offset < pointer + 8 and pointer < offset + length and not offset <= pointer <= offset + length - 8:
                    raise Refused('%s: a pointer %s, and %d %s %s' % (self.name, where(pointer), length, what, where(offset)))
        return len(pointers)

    def check_type(self, offset, kind, number, pointers):
        if self.kind == 'lent' and kind != 'i8':
            raise Refused('line %d: %s is used as %s' % (number, self.name, kind))
        if self.kind == 'constant' and kind == 'ptr':
            raise Refused('line %d: a pointer is read from the constant %s' % (number, self.name))
        for pointer in pointers:
            unknown = ANYWHERE in (offset, pointer)
            if unknown or (offset, kind) != (pointer, 'ptr') and offset < pointer + 8 and pointer < offset + WIDTH[kind]:
                raise Refused('line %d: %s: a pointer %s, and %s %s' % (number, self.name, where(pointer), kind, where(offset)))


def where(offset):
    return 'anywhere' if offset is ANYWHERE else 'at %d' % offset


def add(to, more):
    """Whether the set grew."""
    before = len(to)
    to |= more
    return len(to) > before


class Values(dict):
    """What a function's names stand for: a set of places (object, offset) for a pointer, a list of two such for a pair, None for a number."""

    def __missing__(self, name):
        raise Refused('a pointer that comes from nowhere: %s' % name)


class Run:
    """An exported function with all that it calls."""

    def __init__(self, functions, constants, root):
        self.functions = functions
        self.objects = []
        self.rules = []  # how pointers go from one place to another
        self.uses, self.zeros, self.copies = [], [], []
        self.constants = {name: {(self.object(name, 'constant', size, size), 0)} for name, size in constants.items()}
        self.seen = set()
        lent = [{(self.object('what C lends to %s as %s' % (root.name, name), 'lent'), ANYWHERE)} if name else None for name in root.parameters]
        self.enter(root, lent, [])
        while any([rule(*about) for rule, *about in self.rules]):
            pass
        self.use()
        self.join()

    def object(self, *about):
        self.objects.append(Object(*about))
        return self.objects[-1]

    def enter(self, function, arguments, results):
        """A call: sets of places for its arguments, and sets that its results are put into."""
        self.seen.add(function.name)
        values = Values(self.constants)
        values.update((name, places) for name, places in zip(function.parameters, arguments) if name)
        for kind, number, *about in function.steps:
            if kind == 'local':
                name, *sizes = about
                values[name] = {(self.object('%s %s' % (function.name, name), 'local', *sizes), 0)}
            elif kind == 'move':
                name, of, by = about
                values[name] = set()
                self.rules.append((self.move, values[name], values[of], by, number))
            elif kind == 'load':
                name, at, found = about
                values[name] = loaded = []
                for offset, part in found:
                    there = values[at]
                    if offset:
                        there = set()
                        self.rules.append((self.move, there, values[at], offset, number))
                    self.uses.append((there, part, False, number))
                    loaded.append(set() if part == 'ptr' else None)
                    if part == 'ptr':
                        self.rules.append((self.load, loaded[-1], there))
                if len(found) == 1:
                    values[name] = loaded[0]
            elif kind == 'use':
                at, part = about
                self.uses.append((values[at], part, True, number))
            elif kind == 'store':
                at, value = about
                self.uses.append((values[at], 'ptr', True, number))
                self.rules.append((self.store, values[at], values[value]))
            elif kind == 'copy':
                into, of, length = about
                self.copies.append((values[into], values[of], length, number))
                self.rules.append((self.copy, values[into], values[of], length))
            elif kind == 'zeros':
                into, length, here = about
                self.zeros.append((values[into], length, here, number))
            elif kind == 'fill':
                into, length = about
                for byte in range(length):
                    there = set()
                    self.rules.append((self.move, there, values[into], byte, number))
                    self.uses.append((there, 'i8', True, number))
            elif kind == 'call':
                name, found, called, passed = about
                inner = [set() if part == 'ptr' else None for _, part in found]
                values[name] = inner if len(found) > 1 else inner[0] if found else None
                self.enter(self.functions[called], [values[a] if a else None for a in passed], inner)
            elif kind == 'part':
                name, of, index = about
                values[name] = values[of][index]
            elif kind == 'return':
                value = values[about[0]]
                for to, of in zip(results, value if isinstance(value, list) else [value]):
                    if to is not None:
                        self.rules.append((add, to, of))

    def move(self, to, of, by, number):
        return add(to, {(o, o.moved(offset, by, number)) for o, offset in of})

    def load(self, to, at):
        return any([add(to, o.found(offset)) for o, offset in at])

    def store(self, at, value):
        return any([add(o.leads[offset], value) for o, offset in at])

    def copy(self, into, of, length):
        changed = False
        for o, offset in of:
            for place, leads in list(o.leads.items()):
                for to, begin in into:
                    if ANYWHERE in (offset, place, begin):
                        changed |= add(to.leads[ANYWHERE], leads)
                    elif offset <= place < offset + length:
                        changed |= add(to.leads[place - offset + begin], leads)
        return changed

    def use(self):
        """Each place gets the types of its uses."""
        for places, kind, written, number in self.uses:
            for o, offset in places:
                o.used(offset, WIDTH_32[kind], number, written)
                o.types[offset].setdefault(kind, number)
        for places, length, here, number in self.zeros:
            for o, offset in places:
                o.used(offset, here, number, True)
                o.together[offset, length] = 'zeros'
        self.same = defaultdict(set)  # object -> (offset, other object, offset there, length): places that a copy makes one
        for into, of, length, number in self.copies:
            for written, places in ((True, into), (False, of)):
                for o, offset in places:
                    o.used(offset, length, number, written)
                    o.together[offset, length] = 'bytes copied'
            for o, offset in into:
                for other, there in of:
                    self.same[o].add((offset, other, there, length))
                    self.same[other].add((there, o, offset, length))

    def join(self):
        """Types go over copies, both ways, until nothing changes."""
        todo = set(self.same)
        while todo:
            x = todo.pop()
            for begin, y, to, length in self.same[x]:
                for offset, types in list(x.types.items()):
                    for kind, number in list(types.items()):
                        for there in self.reached(offset, kind, begin, to, length):
                            if kind not in y.types[there]:
                                y.types[there][kind] = number
                                todo.add(y)

    @staticmethod
    def reached(offset, kind, begin, to, length):
        """Where a type comes by a copy; each place that it may come to, if it is not known from where."""
        if to is ANYWHERE:
            return [ANYWHERE] if ANYWHERE in (offset, begin) or begin <= offset < begin + length else []
        if ANYWHERE in (offset, begin):
            return range(to, to + length - WIDTH[kind] + 1)
        return [offset - begin + to] if begin <= offset < begin + length else []


def check_calls(functions):
    """The deepest chain; a function that comes back to itself is refused."""
    depths = {}

    def depth(name, path):
        if name in path:
            raise Refused('recursion: %s' % name)
        if name not in functions:
            raise Refused('a function from outside: %s' % name)
        if name not in depths:
            for called, *types in functions[name].calls:
                if called in functions and types != [functions[called].type, *functions[called].types]:
                    raise Refused('%s: called with other types than it has: %s' % (called, ' '.join(types)))
            depths[name] = 1 + max((depth(called, path + (name,)) for called, *types in functions[name].calls), default=0)
        return depths[name]

    return max((depth(name, ()) for name in functions), default=0)


def main(path):
    functions, constants = read(path)
    depth = check_calls(functions)  # without recursion what follows comes to an end
    seen, pointers = set(), 0
    for root in functions.values():
        if root.exported:
            run = Run(functions, constants, root)
            pointers += sum(o.check() for o in run.objects)
            seen |= run.seen
    if functions.keys() - seen:
        raise Refused('functions that nobody calls: %s' % ' '.join(sorted(functions.keys() - seen)))
    print('%d places that hold pointers, 0 used as numbers too; %d functions, deepest chain %d' % (pointers, len(functions), depth))


run(main)
