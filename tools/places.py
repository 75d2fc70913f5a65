"""Counts the places in src/ that docs/DESIGN-PASS.md speaks of, a point at a time.

    python3 tools/places.py [-v] [FOLDER] [POINT ..]

FOLDER is the top of a checkout (this one if left out); with -v each place is printed with its file and line. What each point counts is said at its function.
"""
import collections
import glob
import os
import re
import sys

NOTHING = ('Bad Nothing No None Other Out Over Broken Wrong Refused Malformed Ended Unknown').split()
TOKEN = re.compile(r'''b?'(?:\\.[^']*|[^'\\])'|b?"(?:\\.|[^"\\])*"|[A-Za-z_]\w*|\d\w*|[^\s\w]''')


class Function:
    def __init__(self, file, line, name, parameters, result, clauses, body):
        self.file, self.line, self.name = file, line, name
        self.parameters, self.result, self.clauses, self.body = parameters, result, clauses, body


def bare(text):
    """The text with its comments as blanks, so that places stay."""
    return re.sub(r'//[^\n]*', lambda m: ' ' * len(m[0]), text)


def closing(text, at):
    """The place of the bracket that closes the one at a place; what stands in quotes is passed."""
    depth, pairs = 0, {'(': ')', '{': '}', '[': ']'}
    for m in re.compile(r'''b?'(?:\\.[^']*|[^'\\\n])'|b?"(?:\\.|[^"\\])*"|[(){}\[\]]''').finditer(text, at):
        if m[0] in pairs:
            depth += 1
        elif m[0] in pairs.values():
            depth -= 1
            if depth == 0:
                return m.start()
    return len(text)


def sources(top):
    for path in sorted(glob.glob(os.path.join(top, 'crates/*/src/**/*.rt'), recursive=True)):
        with open(path) as f:
            yield os.path.relpath(path, top), bare(f.read())


def functions(top):
    for file, text in sources(top):
        for m in re.finditer(r'\bfn (\w+)(?:<[^(]*>)?\(', text):
            end = closing(text, m.end() - 1)
            rest = re.compile(r'\s*(?:->\s*([^{;]*?))?\s*((?:(?:requires|ensures|where)\b[^{;]*\{.*?\}\s*)*)\{', re.S)
            at, clauses = end + 1, []
            head = re.compile(r'\s*(?:->\s*((?:(?!\brequires\b|\bensures\b)[^{;])*))?').match(text, at)
            result, at = (head[1] or '').strip(), head.end()
            while True:
                c = re.compile(r'\s*(requires|ensures)\b([^{]*)\{').match(text, at)
                if not c:
                    break
                stop = closing(text, c.end() - 1)
                clauses.append((c[1], c[2].strip(), ' '.join(text[c.end():stop].split())))
                at = stop + 1
            b = re.compile(r'\s*\{').match(text, at)
            body = text[b.end():closing(text, b.end() - 1)] if b else ''
            parameters = [' '.join(p.split()) for p in split(text[m.end():end])]
            yield Function(file, text.count('\n', 0, m.start()) + 1, m[1], parameters, result, clauses, body)


def split(text, comma=','):
    parts, depth, last = [], 0, ''
    for c in text:
        depth += (c in '([{<') - (c in ')]}>')
        if c == comma and depth == 0:
            parts.append(last)
            last = ''
        else:
            last += c
    return [p for p in (*parts, last) if p.strip()]


def line(text, at):
    return text.count('\n', 0, at) + 1


def point1(top):
    """Own enums with a variant for nothing beside one with a value (the shape of Option), with one value and refusals (that of Result) or of three
    orders; fields, parameters and results of type u8, u32 or usize whose name says a kind or a refusal."""
    for file, text in sources(top):
        for m in re.finditer(r'\benum (\w+)[^{]*\{', text):
            body = text[m.end():closing(text, m.end() - 1)]
            variants = [v.strip() for v in split(body)]
            names = [re.match(r'\w+', v)[0] for v in variants]
            units = [n for n, v in zip(names, variants) if n == v]
            if set(names) == {'Less', 'Equal', 'Greater'}:
                yield file, line(text, m.start()), 'enum %s: an order' % m[1]
            elif len(units) == 1 and len(names) == 2:
                yield file, line(text, m.start()), 'enum %s: as Option' % m[1]
            elif any(n in NOTHING for n in names):
                yield file, line(text, m.start()), 'enum %s: a variant for nothing or a refusal' % m[1]
            elif len(names) - len(units) == 1 and len(names) > 2:
                yield file, line(text, m.start()), 'enum %s: as Result' % m[1]
        for m in re.finditer(r'\b(\w*(?:kind|fault|layout|code|refusal|way|state)\w*): (u8|u32|usize)\b', text):
            yield file, line(text, m.start()), 'number %s: %s' % (m[1], m[2])
    for f in functions(top):
        if f.result in ('u8', 'u32', 'usize') and re.search(r'kind|fault|code|refus|layout', f.name):
            yield f.file, f.line, 'number from %s: %s' % (f.name, f.result)


def shape(f):
    """A function's body and parameters with numbers, strings and its own names left out."""
    names, out = {}, []
    for t in TOKEN.findall(' , '.join(p.split(':')[-1] for p in f.parameters) + ' ; ' + f.body):
        if re.match(r'''b?['"]|\d''', t):
            out.append('0')
        elif re.match(r'[a-z_]', t) and t not in ('if', 'else', 'let', 'mut', 'return', 'while', 'for', 'in', 'match', 'as', 'loop', 'self', 'crate'):
            out.append(names.setdefault(t, 'n%d' % len(names)))
        else:
            out.append(t)
    return tuple(out)


def point2(top):
    """Groups of functions whose bodies are the same but for names, numbers and types of whole numbers (40 tokens at least, or 12 where the functions'
    names are the same but for digits, or in two crates the same); each function of a group but its first is a place."""
    by = collections.defaultdict(list)
    for f in functions(top):
        if f.body:
            by[tuple(re.sub(r'^[ui](8|16|32|64|size)$', 'T', t) for t in shape(f))].append(f)
    for s, group in by.items():
        stem = collections.Counter(re.sub(r'\d', '', f.name) for f in group)
        if len(group) > 1 and (len(s) >= 40 or (len(s) >= 6 and max(stem.values()) > 1)):
            for f in group[1:]:
                yield f.file, f.line, '%s as %s (%s)' % (f.name, group[0].name, group[0].file)


def point3(top):
    """Loops by `while` or `loop`; those that count by one are said so."""
    for file, text in sources(top):
        for m in re.finditer(r'\b(while|loop)\b[^{};]*\{', text):
            body = text[m.end():closing(text, m.end() - 1)]
            counts = re.search(r'\b(\w+) [+-]= 1;', body)
            yield file, line(text, m.start()), 'counts %s' % counts[1] if counts else 'does not count by one'


def point4(top):
    """Functions whose name says equality, order, copying, conversion or printing of a type of this repository or of numbers, in place of a derive or a trait
    of std: equal, same, less, compare, copy_of, code_of, number_of, NAME_code, from_, digit, hex, print_, put_ in programs."""
    for f in functions(top):
        if re.search(r'^(equal|same|less|compare|is_less|not_above|copied|code_of|number_of|.*_code|of_code|from_\w+|hex_\w+|nibble|digit|print_\w+|write_hex|show_hex|write_number|say_\w+)$', f.name):
            yield f.file, f.line, f.name


def point5(top):
    """Facts that stand in the `requires` of three functions or more of a crate, and pairs of parameters, of the same names and types, that three
    functions or more of a crate have and, of those that have the rarer one, three in four. A fact and a pair are a place each, in each crate, at
    the first function that has it."""
    facts, pairs, alone = collections.defaultdict(list), collections.defaultdict(list), collections.Counter()
    for f in functions(top):
        crate = f.file.split('/')[1]
        said = {p.strip().strip('()').strip() for word, _, clause in f.clauses if word == 'requires' for p in split(clause, '×')}
        for part in sorted(said):
            facts[crate, part].append(f)
        for i, p in enumerate(f.parameters):
            alone[crate, p] += 1
            for q in f.parameters[i + 1:]:
                pairs[(crate, *sorted((p, q)))].append(f)
    for (crate, part), fs in facts.items():
        if len(fs) >= 3:
            yield fs[0].file, fs[0].line, 'fact in %d: %s' % (len(fs), part)
    for (crate, p, q), fs in pairs.items():
        if len(fs) >= 3 and 4 * len(fs) >= 3 * min(alone[crate, p], alone[crate, q]):
            yield fs[0].file, fs[0].line, 'parameters in %d: %s, %s' % (len(fs), p, q)


def point6(top):
    """Arrays of a fixed length in fields, lets and parameters; a slice with a number of its own name beside it; fields that are parallel arrays."""
    for file, text in sources(top):
        for m in re.finditer(r'(?:\b(?:let (?:mut )?)?(\w+): &?(?:mut )?\[\w+; [\w ]+\])|(?:\blet (?:mut )?(\w+) = \[[^\]\n;]*; \w+\])', text):
            yield file, line(text, m.start()), 'array %s' % (m[1] or m[2])


def point7(top):
    """Functions that do one thing or another by a parameter that is a bool or a number called a layout, a step, a way or a mode: one that is tested by
    `if` or `match` right away."""
    for f in functions(top):
        for p in f.parameters:
            name, _, kind = p.partition(': ')
            switch = kind == 'bool' or (kind in ('u8', 'u32', 'usize') and re.search(r'layout|step|way|mode', name))
            if switch and re.search(r'\b(?:if|match) (?:!)?%s\b' % re.escape(name), f.body):
                yield f.file, f.line, '%s: %s' % (f.name, p)


def point8(top):
    """Answers that stand three times or more in the proofs of a crate (the same right side, 30 characters at least): each but the first is a place."""
    for crate in sorted(os.listdir(os.path.join(top, 'crates'))):
        seen = collections.Counter()
        for path in sorted(glob.glob(os.path.join(top, 'crates', crate, 'proofs/*/Answers.antt'))):
            with open(path) as f:
                text = re.sub(r'--[^\n]*', '', f.read())
            for m in re.finditer(r'^(?!abbrev|pub|use)([\w-]+) [^=\n]*=\s*(.*?)(?=^\S|\Z)', text, re.S | re.M):
                said = ' '.join(m[2].split())
                if len(said) >= 30:
                    seen[said] += 1
                    if seen[said] >= 3:
                        yield os.path.relpath(path, top), line(text, m.start()), said[:100]


POINTS = {'1': point1, '2': point2, '3': point3, '4': point4, '5': point5, '6': point6, '7': point7, '8': point8}


def main():
    words = sys.argv[1:]
    told = '-v' in words
    words = [w for w in words if w != '-v']
    top = words.pop(0) if words and words[0] not in POINTS else os.path.join(os.path.dirname(os.path.abspath(__file__)), '..')
    for p in words or sorted(POINTS):
        found = list(POINTS[p](top))
        by = collections.Counter(file.split('/')[1] for file, *_ in found)
        print('%s: %d  (%s)' % (p, len(found), ', '.join('%s %d' % x for x in sorted(by.items()))))
        if told:
            for file, at, what in found:
                print('    %s:%d: %s' % (file, at, what))


if __name__ == '__main__':
    main()
