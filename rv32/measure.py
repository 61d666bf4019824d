"""What the archives cost on RV32: flash, static RAM, stack, instructions. Needs the packages that rv32/missing names.

    measure.py [TARGET/VARIANT...]    measures, a figure a line: target/variant, what, number
    measure.py --check FILE           measures, and holds the figures to those of FILE; a figure may be 2 % off, one of a stack 8 bytes"""
import os
import re
import subprocess
import sys
import tempfile
from collections import defaultdict

HERE = os.path.dirname(os.path.abspath(__file__))
ABI = {'rv32imac': 'ilp32', 'rv32imafc': 'ilp32f', 'rv32ec': 'ilp32e'}
# What a call of docs/SPEED.md calls; where a frame is aligned the compiler's numbers are up to 8 bytes too small.
ENTRIES = {'write,': 'write', 'write-read,': 'write_read', 'transaction,': 'transaction', 'slave receive,': 'respond_to_write', 'slave reply,': 'respond_to_read'}
ALIGNMENT = 8
ALL = [target + '/' + variant for target in ('rv32imac', 'rv32ec') for variant in ('fast', 'small')]


def run(*words, **environment):
    done = subprocess.run(words, capture_output=True, text=True, env={**os.environ, **environment})
    if done.returncode != 0:
        sys.exit('measure.py: %s\n%s%s' % (' '.join(words), done.stdout, done.stderr))
    return done.stdout


def linked(target, out, *words):
    """A program; the bytes of the library in it, by the linker's map."""
    run(HERE + '/cc', out, '-I' + HERE, '-Wl,-Map=' + out + '.map', *words, MARCH=target, MABI=ABI[target])
    text = open(out + '.map').read().split('Linker script and memory map')[1]
    return sum(int(size, 16) for address, size in re.findall(r'(0x[0-9a-f]+) +(0x[0-9a-f]+) \S*\(ch32_i2c\.o\)', text) if int(address, 16))


def static_ram(archive):
    text, data, bss = run('riscv64-unknown-elf-size', archive).splitlines()[1].split()[:3]
    return int(data) + int(bss)


def from_outside(archive):
    """Functions that the archive needs from outside."""
    return sorted(re.findall(r' U (\w+)', run('riscv64-unknown-elf-nm', '-u', archive)))


def stacks(archive):
    """The worst stack of each exported function: its own frame and the deepest chain below it, by the relocations of calls."""
    own = {}
    for line in open(archive[:-2] + '.su'):
        name, size, kind = line.rstrip('\n').split('\t')
        if kind != 'static':
            sys.exit('measure.py: a frame of unknown size: ' + line)
        own[re.sub(r'^[^:]*\.ll:', '', name)] = int(size)
    calls, here = defaultdict(set), None
    for line in run('riscv64-unknown-elf-objdump', '-dr', archive).splitlines():
        label = re.match(r'[0-9a-f]+ <(.*)>:$', line)
        if label and not label[1].startswith('.L'):
            here = label[1]
        called = re.search(r'R_RISCV_(?:CALL(?:_PLT)?|JAL|RVC_JUMP)\s+(\S+)', line)
        if called:
            name = re.sub(r'[+-]0x[0-9a-f]+$', '', called[1])
            if name in own and name != here:
                calls[here].add(name)

    def deepest(name):
        return own[name] + max((deepest(below) for below in calls[name]), default=0)

    return {name: deepest(name) for name in own if name.startswith('ch32_i2c_')}


def check_seen(name, seen, found):
    """The stack that a call used is within what its functions are said to need."""
    entry = next(entry for words, entry in ENTRIES.items() if name.startswith(words))
    if seen > max(found['stack of ch32_i2c_%s_%s' % (entry, part)] for part in ('begin', 'step')) + ALIGNMENT:
        sys.exit('measure.py: %s used %d bytes of stack, more than its functions need' % (name, seen))


def figures(which):
    target, variant = which.split('/')
    archive = 'target/rv32/%s/libch32_i2c_%s.a' % (target, variant)
    found = {}
    with tempfile.TemporaryDirectory() as work:
        found['flash of one write-read'] = linked(target, work + '/one', HERE + '/one_call.c', archive)
        found['flash of everything'] = linked(target, work + '/all', HERE + '/one_call.c', '-Wl,--whole-archive', archive, '-Wl,--no-whole-archive', '-Wl,--no-gc-sections')
        found['static RAM'] = static_ram(archive)
        for name, size in sorted(stacks(archive).items()):
            found['stack of ' + name] = size
        linked(target, work + '/steps', HERE + '/steps.c', archive)
        for line in run(HERE + '/run', work + '/steps', COUNT='1').splitlines():
            name, average, worst, seen = line.split('\t')
            found['instructions an access: ' + name] = float(average)
            found['worst step: ' + name] = int(worst)
            found['stack seen: ' + name] = int(seen)
            check_seen(name, int(seen), found)
        linked(target, work + '/one_byte', HERE + '/one_byte.c', archive)
        for line in run(HERE + '/run', work + '/one_byte', COUNT='1').splitlines():
            name, taken = line.split('\t')
            found['from STAR2 to STOP of one byte: ' + name] = int(taken)
        linked(target, work + '/window', HERE + '/window.c', archive)
        for line in run(HERE + '/run', work + '/window', COUNT='1').splitlines():
            name, taken = line.split('\t')
            found['instructions of a speed window: ' + name] = int(taken)
    return found, from_outside(archive)


def shown(value):
    return '%.1f' % value if isinstance(value, float) else str(value)


def measured(which):
    for name in which:
        found, needed = figures(name)
        for what, value in found.items():
            yield name, what, shown(value)
        yield name, 'functions from outside', ' '.join(needed) or 'none'


def is_near(what, stored, now):
    if what == 'functions from outside' or what == 'static RAM':
        return stored == now
    margin = 8 if what.startswith('stack') else max(2, float(stored) / 50)
    return abs(float(stored) - float(now)) <= margin


def check(path):
    stored = {}
    for line in open(path):
        name, what, value = line.rstrip('\n').split('\t')
        stored[name, what] = value
    now = {(name, what): value for name, what, value in measured(sorted({name for name, what in stored}))}
    wrong = [(key, stored.get(key), now.get(key)) for key in {**stored, **now} if key not in stored or key not in now or not is_near(key[1], stored[key], now[key])]
    for (name, what), before, after in wrong:
        print('%s, %s: %s in the file, %s now' % (name, what, before, after))
    print('%d figures measured on RV32, %d not as in %s' % (len(now), len(wrong), path))
    return not wrong


if sys.argv[1:2] == ['--check']:
    sys.exit(not check(sys.argv[2]))
for line in measured(sys.argv[1:] or ALL):
    print('\t'.join(line))
