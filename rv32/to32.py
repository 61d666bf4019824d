"""to32.py MODULE.ll TARGET-LINES HEADER: the text of the kept module for a target with 32-bit pointers.

Changed are: the two target lines; the attributes that are x86's; the type of a memmove's or memset's length, which is always a constant, and the length of zeros
over a variable that is a pointer, which is 4; a pair that holds a pointer is read from memory part by part, each where the module has it (there a pointer lies at a
multiple of 8; the target's own layout would have it at a multiple of 4); and in the exported functions the lengths, which come as size_t, so in 32 bits, and are widened
before they are stored. The functions behind them stay as they are otherwise.
The exported functions have to be the header's, parameter by parameter. Anything that forms.py doesn't know is refused."""
import re
from math import gcd

from forms import Refused, lines, parts, run

C_TYPES = {'uint8_t *': 'ptr', 'const uint8_t *': 'ptr', 'size_t ': 'i64', 'uint8_t ': 'i8', 'uint16_t ': 'i16', 'uint32_t ': 'i32'}


def declared(header):
    """The header's functions with the types of their parameters, as the module for x86-64 has them."""
    functions = {}
    for name, parameters in re.findall(r'^uint64_t (ch32_i2c_\w+)\(([^)]*)\);', open(header).read(), re.M):
        types = [re.sub(r'\w+$', '', ' '.join(parameter.split())) for parameter in parameters.split(',')]
        if not set(types) <= set(C_TYPES):
            raise Refused('a parameter of another type in %s: %s' % (name, ', '.join(types)))
        functions[name] = [C_TYPES[kind] for kind in types]
    return functions


def by_parts(match):
    """The lines for a load of a pair: of each part its place, its load, and the part put into the pair."""
    to, kind, before = match['to'], match['type'], 'poison'
    found = parts(kind)
    for index, (offset, part) in enumerate(found):
        name = '%s.%d' % (to, index)
        made = to if index == len(found) - 1 else '%s.with' % name
        yield '  %s.at = getelementptr i8, ptr %s, i64 %d' % (name, match['at'], offset)
        yield '  %s = load %s, ptr %s.at, align %d' % (name, part, name, gcd(offset, int(match['align'])))
        yield '  %s = insertvalue %s %s, %s %s, %d' % (made, kind, before, part, name, index)
        before = made


def main(module, target, header):
    wanted = declared(header)
    new = dict(zip(('layout', 'triple'), open(target).read().splitlines()))
    if '-i64:64-' not in new.get('layout', ''):
        raise Refused('a target on which numbers lie otherwise than in the module')
    lengths, widened = set(), set()  # of the exported function under way
    pointers = set()  # variables of the function under way that are pointers
    seen = set()
    for number, kind, match, text in lines(module):
        if kind in new:
            seen.add(kind)
            text = new[kind]
        elif kind == 'attributes':
            text = 'attributes %s = { %snounwind }' % (match['group'], match['words'])
        elif kind == 'declare memmove':
            text = text.replace('memmove.p0.p0.i64', 'memmove.p0.p0.i32').replace(', i64, i1', ', i32, i1')
        elif kind == 'declare memset':
            text = text.replace('memset.p0.i64', 'memset.p0.i32').replace('i8, i64, i1', 'i8, i32, i1')
        elif kind == 'zeros':
            text = text.replace('memset.p0.i64', 'memset.p0.i32').replace('i8 0, i64', 'i8 0, i32')
            if match['into'] in pointers:
                if match['length'] != '8':
                    raise Refused('line %d: zeros over a part of a pointer: %s' % (number, text))
                text = text.replace('i32 8,', 'i32 4,')
        elif kind == 'filled':
            text = text.replace('memset.p0.i64', 'memset.p0.i32').replace(', i64 %s, i1' % match['length'], ', i32 %s, i1' % match['length'])
        elif kind == 'copy':
            text = text.replace('memmove.p0.p0.i64', 'memmove.p0.p0.i32').replace(', i64 %s, i1' % match['length'], ', i32 %s, i1' % match['length'])
        elif kind == 'exported':
            parameters = [parameter.split() for parameter in match['parameters'].split(', ')]
            if [parameter[0] for parameter in parameters] != wanted.pop(match['name'], None):
                raise Refused('line %d: the header has no such function: %s' % (number, text))
            lengths = {parameter[-1] for parameter in parameters if parameter[0] == 'i64'}
            text = text.replace('i64 noundef %a', 'i32 noundef %a')
        elif kind == 'end':
            if lengths:
                raise Refused('line %d: a length that was not stored: %s' % (number, ' '.join(lengths)))
            widened, pointers = set(), set()
        elif kind == 'local' and match['type'] == 'ptr':
            pointers.add(match['to'])
        elif kind == 'load' and 'ptr' in match['type'] and match['type'] != 'ptr':
            text = '\n'.join(by_parts(match))
        elif kind == 'store' and match['value'] in lengths:
            length = match['value']
            lengths.remove(length)
            widened.add(length)
            print('  %s.wide = zext i32 %s to i64' % (length, length))
            text = text.replace(' %s,' % length, ' %s.wide,' % length)
        elif (lengths | widened) & set(re.findall(r'%a\d+', text)):
            raise Refused('line %d: a length that is used otherwise: %s' % (number, text))
        print(text)
    if wanted or seen != set(new) or len(new) != 2:
        raise Refused('functions of the header that are not there: %s' % ' '.join(wanted) if wanted else 'not two target lines')


run(main)
