"""The lines that the text of the kept module may have. Any other is refused: the kit then lowers otherwise than was looked at here.

A line that is plain arithmetic on numbers may be added without more ado; one that makes, compares or hands on pointers has to be thought of in pointers.py too.
That a cut loses nothing is proved of the source, and the kit's text has no mark of it. So 64 bits, which lengths have, are cut (`trunc`) in the functions of CUTS alone; to
the target's 32 bits in two, and there it is no length."""
import re
import sys
from functools import lru_cache

V = r'%[A-Za-z0-9_.]+'
NUMBER = r'i(?:1|8|16|32|64)'
TYPE = r'(?:%s|ptr)' % NUMBER
# What a small struct or enum is handed back as: an option of a number or of a reference, a slice, a reference and a number
PAIR = r'\{ %s, %s \}' % (TYPE, TYPE)
RESULT = r'(?:%s|%s)' % (TYPE, PAIR)
OPERAND = r'(?:%s|-?\d+|true|false)' % V
CONSTANT = r'@static\.\d+'  # where a constant lies
POINTER = r'(?:%s|%s)' % (V, CONSTANT)
NAME = r'(?:"[^"]*"|[A-Za-z0-9_]+)'
PARAMETER = r'%s(?: noundef)?(?: zeroext)? %%a\d+' % TYPE
ARGUMENT = r'(?:%s %s|ptr %s)' % (NUMBER, OPERAND, POINTER)
ALIGN = r', align \d+'
CUTS = {  # function, a generic one at each type -> to how many bits it cuts 64
    # a length or a sum of lengths that is at most 65,535
    'master_call::frame::read_step': '16', 'master_call::frame::write_step': '16', 'master_call::transaction::transaction_step': '16',
    'master_call::write_read::write_read_step': '16', 'slave_step::step::step_of': '16',
    # the library's `try_from`, which asks first whether it fits
    'core::convert::try_from::U8Integer::join': '8', 'core::convert::try_from::U16Integer::join': '16',
    # a divider that is at most 4095
    'timing::timing::timing': '16', 'speed_window::fastest::fastest': '16',
    # parts of the number that is handed to C: an error, a value; a register's number, a word, a byte's place
    'access::ending::ending_in': '8 16', 'asked::need_of': '8 16 32', 'asked::Asked::shown': '32',
}

FORMS = [(kind, re.compile(pattern)) for kind, pattern in [
    ('empty', r'|;.*'),
    ('source', r'source_filename = "rattle"'),
    ('layout', r'target datalayout = "e-m:e-p270:32:32-p271:32:32-p272:64:64-i64:64-i128:128-f80:128-n8:16:32:64-S128"'),
    ('triple', r'target triple = "x86_64-unknown-linux-gnu"'),
    ('declare memmove', r'declare void @llvm\.memmove\.p0\.p0\.i64\(ptr writeonly captures\(none\), ptr readonly captures\(none\), i64, i1 immarg\) #\d'),
    ('declare memset', r'declare void @llvm\.memset\.p0\.i64\(ptr writeonly captures\(none\), i8, i64, i1 immarg\) #\d'),
    ('declare trap', r'declare void @llvm\.trap\(\) #\d'),
    ('declare counts', r'declare (?P<type>%s) @llvm\.(?:(?:ctlz|cttz)\.(?P=type)\((?P=type), i1 immarg\)|ctpop\.(?P=type)\((?P=type)\)) #\d' % NUMBER),
    ('attributes', r'attributes (?P<group>#\d) = \{ (?P<words>(?:(?:alwaysinline|cold|inlinehint|noinline) )*)nounwind "probe-stack"="inline-asm" "stack-probe-size"="3072" "target-cpu"="x86-64-v2" \}'),
    ('attributes of intrinsics', r'attributes #\d = \{ (?:nocallback nofree nounwind willreturn memory\(argmem: (?:readwrite|write)\)'
                                 r'|cold noreturn nounwind memory\(inaccessiblemem: write\)'
                                 r'|nocallback (?:nocreateundeforpoison )?nofree nosync nounwind speculatable willreturn memory\(none\)) \}'),
    # bytes that nobody writes; one that holds a pointer has another form
    ('constant', r'(?P<name>%s) = private unnamed_addr constant \[(?P<size>\d+) x i8\] (?:zeroinitializer|c"(?:[^"\\]|\\[0-9A-F]{2})*"), align \d+' % CONSTANT),
    ('metadata', r'!llvm\.ident = !\{!0\}|!0 = !\{!"rattle logic=[0-9a-f]+"\}|!\d = !\{(?:i8 0, i8 2)?\}'),
    ('exported', r'define noundef (?P<type>i64) @(?P<name>[a-z0-9_]+)\((?P<parameters>%s(?:, %s)*)\) #\d \{' % (PARAMETER, PARAMETER)),
    ('internal', r'define internal (?:noundef )?(?:zeroext )?(?P<type>void|%s) @(?P<name>%s)\((?P<parameters>(?:%s(?:, %s)*)?)\) #\d \{' % (RESULT, NAME, PARAMETER, PARAMETER)),
    ('end', r'\}'),
    ('label', r'[a-z]+(?:\.\d+)?: *(?:;.*)?'),
    ('local', r'  (?P<to>%s) = alloca (?:\[(?P<bytes>\d+) x i8\]|(?P<type>%s))%s' % (V, TYPE, ALIGN)),
    ('place', r'  (?P<to>%s) = getelementptr (?:inbounds nuw )?i8, ptr (?P<of>%s), i64 (?P<by>\d+)' % (V, V)),
    ('element', r'  (?P<to>%s) = getelementptr inbounds nuw i8, ptr (?P<of>%s), i64 (?P<by>%s)' % (V, V, V)),
    ('is null', r'  (?P<to>%s) = icmp eq ptr (?P<of>%%a\d+), null' % V),
    ('moved', r'  (?P<to>%s) = getelementptr i8, ptr (?P<of>%s), i64 (?P<by>%s)' % (V, V, V)),
    ('load', r'  (?P<to>%s) = load (?P<type>%s), ptr (?P<at>%s), align (?P<align>\d+)(?:, !range !\d)?(?:, !noundef !\d)?' % (V, RESULT, V)),
    ('store', r'  store (?P<type>%s) (?P<value>%s), ptr (?P<at>%s)%s' % (NUMBER, OPERAND, V, ALIGN)),
    ('store of a pointer', r'  store ptr (?P<value>%s), ptr (?P<at>%s)%s' % (POINTER, V, ALIGN)),
    ('copy', r'  call void @llvm\.memmove\.p0\.p0\.i64\(ptr (?P<into>%s), ptr (?P<of>%s), i64 (?P<length>\d+), i1 false\)' % (V, V)),
    ('zeros', r'  call void @llvm\.memset\.p0\.i64\(ptr (?P<into>%s), i8 0, i64 (?P<length>\d+), i1 false\)' % V),
    ('filled', r'  call void @llvm\.memset\.p0\.i64\(ptr (?P<into>%s), i8 (?P<with>%s), i64 (?P<length>\d+), i1 false\)' % (V, OPERAND)),
    ('trap', r'  call void @llvm\.trap\(\)'),
    ('call', r'  (?:(?P<to>%s) = )?call (?P<type>void|%s) @(?P<name>%s)\((?P<arguments>(?:%s(?:, %s)*)?)\)' % (V, RESULT, NAME, ARGUMENT, ARGUMENT)),
    ('arithmetic', r'  (?P<to>%s) = (?P<what>(?:add|sub|mul)(?: nuw)?|udiv|urem|and|or|xor|shl|lshr) %s (?P<of>%s), (?P<by>%s)' % (V, NUMBER, OPERAND, OPERAND)),
    # zeros at either end of a word, and ones
    ('count', r'  %s = call (?P<type>%s) @llvm\.(?:(?:ctlz|cttz)\.(?P=type)\((?P=type) %s, i1 false\)|ctpop\.(?P=type)\((?P=type) %s\))' % (V, NUMBER, OPERAND, OPERAND)),
    ('comparison', r'  %s = icmp (?:eq|ne|ult|ule) %s %s, %s' % (V, NUMBER, OPERAND, OPERAND)),
    ('wider', r'  (?P<to>%s) = zext i(?:1|8|16|32) (?P<of>%s) to %s' % (V, OPERAND, NUMBER)),
    ('narrower', r'  %s = trunc i(?:8|16|32) %s to i(?:1|8|16)' % (V, OPERAND)),
    ('cut', r'  %s = trunc i64 %s to i(?P<bits>\d+)' % (V, OPERAND)),
    ('part', r'  (?P<to>%s) = extractvalue (?P<type>%s) (?P<of>%s), (?P<index>\d+)' % (V, PAIR, V)),
    ('branch', r'  br (?:label %s|i1 %s, label %s, label %s)' % (V, OPERAND, V, V)),
    ('switch', r'  switch %s %s, label %s \[' % (NUMBER, OPERAND, V)),
    ('case', r'    %s -?\d+, label %s|  \]' % (NUMBER, V)),
    ('return', r'  ret (?:void|(?P<type>%s) (?P<of>%s))' % (RESULT, OPERAND)),
    ('unreachable', r'  unreachable'),
]]


WIDTH = {'i1': 1, 'i8': 1, 'i16': 2, 'i32': 4, 'i64': 8, 'ptr': 8}  # in bytes, in the module for x86-64


def parts(kind):
    """Where the module has the parts of a value in memory: offset and type of each."""
    at, found = 0, []
    for part in re.findall(r'i\d+|ptr', kind):
        at += -at % WIDTH[part]
        found.append((at, part))
        at += WIDTH[part]
    return found


class Refused(Exception):
    pass


@lru_cache(maxsize=None)  # many lines stand in many functions
def form(text):
    """A line's form and match; None if no form has it."""
    for kind, pattern in FORMS:
        match = pattern.fullmatch(text)
        if match:
            return kind, match
    return None


def lines(path):
    """Number, form, match and text of each line. A pair is used as what it was made as, and a function hands back what it says."""
    function = None
    types = {}  # of the function's values, and under '' what it hands back
    for number, text in enumerate(open(path, encoding='utf-8'), 1):
        text = text.rstrip('\n')
        known = form(text)
        if known is None:
            raise Refused('line %d has a form that is not known: %s' % (number, text))
        kind, match = known
        if kind in ('exported', 'internal'):
            function = match['name'].strip('"').split('::<')[0]
            types = {'': match['type']}
        if kind in ('load', 'call'):
            types[match['to']] = match['type']
        if kind in ('part', 'return'):
            of_pair = '{' in (match['type'] or '')
            if of_pair and match['type'] != types.get(match['of']) or kind == 'return' and (match['type'] or 'void') != types['']:
                raise Refused('line %d: of another type than is said before: %s' % (number, text))
        if kind == 'cut' and match['bits'] not in CUTS.get(function, '').split():
            raise Refused('line %d: 64 bits are cut to %s in %s: %s' % (number, match['bits'], function, text))
        yield number, kind, match, text


def run(main):
    """The program: a refusal is one line and exit status 1."""
    try:
        main(*sys.argv[1:])
    except Refused as refused:
        sys.exit('%s: %s' % (sys.argv[0], refused))
