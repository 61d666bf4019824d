#!/usr/bin/env python3
"""spell.py [--list]: the repository's own definitions, lemmas, fields and constructors in snake case, after port.py and before any edit by hand.

Run once at the top. A name of the repository's own with a hump (`fieldOf`) or a dash (`said-back`) becomes `field_of`, `said_back`, in every .rt, .antt,
.edit, .py and .md file. Types and facts (a capital first) and the names that Rattle makes keep theirs. Names that would
fall together have a row in OTHER, or, lemmas, in LEMMAS: these get `_lem`. --list prints the names and what they become, and writes nothing."""
import collections
import glob
import os
import re
import sys

BREAK = r"\s(){};.,«»\"\[\]|@`"
TOKEN = re.compile("[^%s]+" % BREAK)
MODIFIERS = r"(?:(?:abbrev|unfoldable|pub|irreducible|opaque|private) +)*"
# old name: new name, where snake case alone falls together with another name
OTHER = {
    # the machine of the slave, whose stages have the names of the Rust's functions
    'abortSlaveTransfer': 'abort_slave_transfer_move', 'clearStopf': 'clear_stopf_move', 'decodeSlaveAddress': 'decode_slave_address_move',
    'clearAf': 'clear_af_move', 'writeBytes': 'write_bytes_move', 'takenOff': 'sent_taken_off', 'clearSlaveStaleFlags': 'clear_slave_stale_flags_move', 'disableSlaveTransfers': 'without_slave_transfers',
    'ownWord': 'own_word_of', 'secondWord': 'second_word_of', 'kind-of': 'kind_of_command', 'withoutBerr': 'has_no_berr', 'rustProgram': 'rusts_program',
    'asTheRust': 'end_as_the_rusts', 'endAsTheRust': 'call_end_as_the_rusts', 'send-start': 'sends_start', 'send-stop': 'sends_stop', 'send-nack': 'sends_nack',
}
# lemmas that would have the name of what they are about
LEMMAS = ('bad-line', 'begin-left', 'call-shown', 'clock-word', 'fits-lent', 'init-held', 'init-shown', 'init-slave-held', 'init-slave-takes', 'init-takes', 'is-call', 'is-ending', 'is-none', 'keeping-by', 'left-if', 'master-held', 'nobody-text', 'on-block', 'reserved-edges',
          'response-takes', 'slave-held', 'transfer-takes', 'word-at', 'written-runs')
OTHER.update({name: name.replace('-', '_') + '_lem' for name in LEMMAS})
# declared where `declared` doesn't look (deep in a module, in a mutual block), or with a beginning that Rattle's own names have
MISSED = {
    'joinW': 'join_written', 'joinR': 'join_read', 'Here-is': 'HereIs', 'Laid-same': 'LaidSame', 'Makes-same': 'MakesSame', 'best-told': 'best_told',
    'by-frequency': 'by_frequency', 'either-small': 'either_small', 'ended-answered': 'ended_answered', 'ended-owed': 'ended_owed', 'loop-alike': 'loop_alike',
    'returns-told': 'returns_told', 'state-of': 'state_of', 'timed-as': 'timed_as',
}


def files(*endings):
    found = []
    for ending in endings:
        found += [p for p in glob.glob('**/*' + ending, recursive=True) + glob.glob('.*/**/*' + ending, recursive=True) if '/out/' not in p and not p.startswith(('.git/', 'tools/')) and p != 'docs/PORT.md']
    return sorted(set(found))


def declared():
    """The names that the specs and proofs declare, each with what it is."""
    names = collections.defaultdict(set)
    for path in files('.antt'):
        kind = None
        for line in open(path, encoding='utf-8'):
            line = line.rstrip('\n')
            if not line.strip() or line.lstrip().startswith('--'):
                continue
            if not line.startswith(' '):
                kind = 'module' if line.startswith('module ') else None
                block = re.match(MODIFIERS + r'(record|data) +([^\s({:]+)', line)
                if block:
                    kind = block.group(1)
                    names[block.group(2)].add('type')
                    continue
                item = re.match(MODIFIERS + r'([^\s({:]+)(?: [({].*[)}])?\s*:(?=\s|$)', line)
                if item:
                    names[item.group(1)].add('lemma' if '/proofs/' in path else 'definition')
            elif kind:
                member = re.match('(?:  ){1,5}' + MODIFIERS + r'([^\s({:]+)(?: [^:]*)?\s*:(?=\s|$)', line)
                if member:
                    names[member.group(1)].add({'record': 'field', 'data': 'constructor', 'module': 'lemma'}[kind])
    return names


def snake(name):
    return re.sub(r'([a-z0-9])([A-Z])', lambda m: m.group(1) + '_' + m.group(2).lower(), name).replace('-', '_')


def spelling():
    names = declared()
    new = {}
    for name in names:
        if name in OTHER:
            new[name] = OTHER[name]
        elif name[0].islower() and snake(name) != name and not name.startswith(('returns-', 'loop-')):
            new[name] = snake(name)
    new.update(MISSED)
    return names, new


def lent(text, own):
    """The names that a file takes from another repository's libraries."""
    found = set()
    for path, items in re.findall(r'^ *(?:pub |ghost )*use +([^\s{;]+?)\.?\{([^}]*)\}', text, re.M):
        if not any(path.startswith('Rattle.%s.' % crate) for crate in own):
            found |= {word.split(' as ')[0].strip() for word in items.split(',')}
    return found


def main():
    names, new = spelling()
    own = {os.path.basename(os.path.dirname(p)) for p in glob.glob('crates/*/src')}
    if '--list' in sys.argv:
        for name in sorted(new):
            print(name, new[name])
        return
    together = 0
    for path in files('.rt', '.antt', '.edit', '.py', '.md'):
        text = open(path, encoding='utf-8').read()
        used = collections.defaultdict(set)
        foreign = lent(text, own) if path.endswith(('.rt', '.antt')) else set()

        def turned(match):
            word = match.group(0)
            if path.endswith('/Proof.antt') and text[match.start() - 1:match.start()] == '.' and 'field' not in names.get(word, ()):
                return word  # a step, in a name that Rattle made
            if word in foreign:
                return word
            to = new.get(word, word)
            if text[match.end():match.end() + 1] != '.':
                used[to].add(word)
            return to
        if path.endswith(('.md', '.py')):
            after = re.sub(r'`[^`\n]+`' if path.endswith('.md') else r"'[^'\n]+'", lambda m: m.group(0)[0] + TOKEN.sub(turned, m.group(0)[1:-1]) + m.group(0)[-1], text)
        else:
            after = TOKEN.sub(turned, text)
        if path.endswith(('.rt', '.antt', '.edit')):
            for to, words in sorted(used.items()):
                if len(words) > 1 and (path.endswith('.antt') and not path.endswith('Proof.antt')):
                    together += 1
                    print('together: %s: %s are both %s' % (path, ', '.join(sorted(words)), to))
        if after != text:
            open(path, 'w', encoding='utf-8').write(after)
    print('spell: %d names, %d of them anew; %d fall together' % (len(names), len(new), together))


if __name__ == '__main__':
    main()
