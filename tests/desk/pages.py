#!/usr/bin/env python3
"""pages.py: runs what the pages show. A block behind 'Save this as `NAME`:' is written to that file. In any other block a line '$ COMMAND'
is run, and what it prints, on standard output and standard error, has to be the lines below it; '..' stands for any lines.
The last line is 'pages: N passed, M failed'."""
import os
import re
import subprocess
import sys
import tempfile

ROOT = os.path.dirname(os.path.dirname(os.path.dirname(os.path.abspath(__file__))))
PAGES = ['README.md', 'docs/FIRST_HOUR.md', 'docs/SHEETS.md']
# what the README says in words: change `hold 10` to `passivate`, and misspell the queue
EDITED = {'./run mine.txt': ('hold 10', 'passivate'), './sheet check mine.txt': ('current queue', 'current qeue')}


def blocks(path):
    """The indented blocks of a page, each with the text line before it."""
    before, block = '', []
    with open(path, encoding='utf-8') as page:
        for line in page.read().splitlines() + ['']:
            if line.startswith('    ') or (block and not line):
                block.append(line[4:])
            else:
                if block:
                    yield before, '\n'.join(block).rstrip('\n').split('\n')
                block = []
            if line and not line.startswith('    '):
                before = line
        if block and any(block):
            yield before, '\n'.join(block).rstrip('\n').split('\n')


def commands(block):
    """Each command of a block with the lines below it."""
    found = []
    for line in block:
        if line.startswith('$ '):
            found.append((line[2:], []))
        elif found:
            found[-1][1].append(line)
    return found


def fits(wanted, got):
    """Whether the lines are these, '..' being any."""
    pattern = ''.join('(?:.*\n)*?' if line == '..' else re.escape(line) + '\n' for line in wanted)
    return re.fullmatch(pattern, got) is not None


def edit(command):
    old, new = EDITED[command]
    with open('mine.txt' if os.path.exists('mine.txt') else 'examples/worked.txt', encoding='utf-8') as text:
        content = text.read()
    with open('mine.txt', 'w', encoding='utf-8') as text:
        text.write(content.replace(old, new))


def save(before, block):
    """Writes the text that the page says to save; the commands that follow it are not part of it."""
    saved = re.search(r'Save this as `([\w.]+)`:$', before)
    if saved:
        end = next((i for i, line in enumerate(block) if line.startswith('$ ')), len(block))
        with open(saved.group(1), 'w', encoding='utf-8') as text:
            text.write('\n'.join(block[:end]) + '\n')


def holds(page, command, wanted):
    """Whether a command prints what the page says."""
    if command in EDITED:
        edit(command)
    got = subprocess.run(command, shell=True, stdout=subprocess.PIPE, stderr=subprocess.STDOUT, check=False).stdout.decode()
    fine = fits([line for line in wanted if line], got)
    if not fine:
        print('failed: %s: %s: it prints, at its end\n%s' % (page, command, got[-2000:]))
    return fine


def try_page(page):
    """What became of each command of a page; a page without any is none that is shown to be right."""
    told = []
    for before, block in blocks(os.path.join(ROOT, page)):
        save(before, block)
        told += [holds(page, command, wanted) for command, wanted in commands(block)]
    if not told:
        print('failed: %s: no command' % page)
    return told or [False]


def main():
    with tempfile.TemporaryDirectory() as folder:
        os.chdir(folder)
        for name in ('run', 'sheet', 'examples'):
            os.symlink(os.path.join(ROOT, name), name)
        told = [fine for page in PAGES for fine in try_page(page)]
    print('pages: %d passed, %d failed' % (told.count(True), told.count(False)))
    sys.exit(False in told)


if __name__ == '__main__':
    main()
