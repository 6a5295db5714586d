#!/usr/bin/env python3
"""operators.py: whether a line of the trace fits, and where it goes, is found "without division, remainder or multiplication, as a search
of its source must show". Searches the code, without comments, contracts and texts, of every file that has to do with the trace; then
plants each operator in each function of these files, and in places that are no code, to show that the search finds what it should.
A `*` that reads through a reference would count too: these files have none. The last line is 'operators: N passed, M failed'."""
import glob
import os
import re
import sys

ROOT = os.path.dirname(os.path.dirname(os.path.dirname(os.path.abspath(__file__))))
# searched whole: the trace writer, the step's write, the loop and its turns, the run call, the C edge and the printing program
CRATES = ['trace', 'run_turn', 'run_turns', 'run_judge', 'run', 'host', 'run_print']
FILES = ['crates/run_arms/src/lib.rt', 'crates/calls/src/turn_call.rt']
# the program for tests has tables of its own to lay out, and writes no line: of its files those count that know what a line takes
TESTING = ['calls', 'calls_served']

NO_CODE = re.compile(r"""//[^\n]*|"(?:\\.|[^"\\])*"|b'(?:\\.|[^'\\])'|ghost\s+use\s[^;]*;""")
CLAUSE = re.compile(r'\b(?:requires|ensures)\b\*?\s*(?:\w+\s*)?\{')
FOUND = re.compile(r'<<|>>|[/%*]|\b\w*(?:mul|div|rem|pow|shl|shr)\w*\s*\(')


def blank(text):
    """The same lines, empty."""
    return re.sub(r'[^\n]', ' ', text)


def code(text):
    """The code of a file, each character at its place: comments, texts, ghost imports and contracts are blank."""
    text = NO_CODE.sub(lambda m: blank(m.group()), text)
    while True:
        clause = CLAUSE.search(text)
        if clause is None:
            return text
        end, depth = clause.end(), 1
        while depth:
            depth += {'{': 1, '}': -1}.get(text[end], 0)
            end += 1
        text = text[:clause.start()] + blank(text[clause.start():end]) + text[end:]


def operators(text):
    """The operators in the code of a file, each with its line."""
    text = code(text)
    return [(text.count('\n', 0, m.start()) + 1, m.group()) for m in FOUND.finditer(text)]


def bodies(text):
    """Where the functions' bodies begin, each with the function's name."""
    text = code(text)
    return [(m.group(1), text.index('{', m.end()) + 1) for m in re.finditer(r'\bfn\s+(\w+)', text)]


def planted(text):
    """Files with an operator planted: what it is, the text, and whether the search has to find it."""
    for name, start in bodies(text):
        for operator in '/%*':
            plant = ' let planted = 2 %s 2;' % operator
            yield '%s in %s' % (operator, name), text[:start] + plant + text[start:], True
        for form in ('2 << 2', '2 >> 2', 'pow(2, 2)'):
            yield '%s in %s' % (form, name), text[:start] + ' let planted = %s;' % form + text[start:], True
        yield 'a comment in %s' % name, text[:start] + ' // 2 / 2 % 2 * 2\n' + text[start:], False
        yield 'a text in %s' % name, text[:start] + ' let planted = b"/%*";' + text[start:], False
    for clause in CLAUSE.finditer(text):
        yield 'a clause', text[:clause.end()] + ' (2 / 2 ≡ 2 * record { a = 2 % 2 }) × ' + text[clause.end():], False


def searched():
    """The files to search: the ones that are named, and any other whose code names the trace."""
    found = set(FILES)
    for path in glob.glob(os.path.join(ROOT, 'crates', '*', 'src', '**', '*.rt'), recursive=True):
        name = os.path.relpath(path, ROOT)
        crate = name.split(os.sep)[1]
        with open(path, encoding='utf-8') as source:
            text = code(source.read())
        traced = re.search(r'\bLINE_BYTES\b' if crate in TESTING else r'\btrace\b|\bLINE_BYTES\b|\bTRACE_LIMIT\b', text)
        if crate in CRATES or traced:
            found.add(name)
    return sorted(found)


def main():
    files = searched()
    passed, failed = 0, []
    for crate in CRATES:
        if not any(name.startswith('crates/%s/src/' % crate) for name in files):
            failed.append('crates/%s has no file to search' % crate)
    for name in files:
        with open(os.path.join(ROOT, name), encoding='utf-8') as source:
            text = source.read()
        found = operators(text)
        failed += ['%s:%d: %s' % (name, line, operator) for line, operator in found]
        passed += not found
        for what, edited, wanted in planted(text):
            if bool(operators(edited)) == (wanted or bool(found)):
                passed += 1
            else:
                failed.append('%s: %s: %s' % (name, what, 'not found' if wanted else 'found, though it is no code'))
    for failure in failed:
        print('failed:', failure)
    print('operators: %d passed, %d failed' % (passed, len(failed)))
    return 1 if failed else 0


if __name__ == '__main__':
    sys.exit(main())
