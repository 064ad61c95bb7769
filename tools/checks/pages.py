"""The docs about the tools, the command lines of README.md, and the tree afterwards."""
import glob
import os
import re
import subprocess

import refusals
import sheets
from checks.harness import ENVIRONMENT, NO_ROWS, PROGRAM, ROOT, WITHIN, WORKED, Group, path, program, run, text

LINK = r'\]\(([^)#]+)(?:#[a-z-]+)?\)'
CITES = r"\bdocuments? 0[0-9]+|\b0[0-9]{1,2}'s|\b(?:of|from) 01\b|\bspecification\b"


# ---- the docs
def cells(line):
    return [cell.strip() for cell in line.split('|')[1:-1]]


def documents():
    g = Group('docs')
    listed = [line for line in text('docs', 'REFUSALS.md').split('\n') if line.startswith('|')]
    g.same('REFUSALS.md has the table of tools/refusals.py', listed, refusals.table())
    g.same('every number, 11 being none', list(refusals.CAUSES), [*range(1, 11), *range(12, 18)])

    page = text('docs', 'SHEET.md')
    numbered = [cells(line) for line in page.split('\n') if re.match(r'\| [0-9]', line)]
    example = [(int(c[0]), bytes.fromhex(c[1])) for c in numbered if len(c) == 3]
    g.same("SHEET.md's bytes", b''.join(part for _, part in example), WITHIN)
    g.same("SHEET.md's positions", [at for at, _ in example],
           [sum(len(part) for _, part in example[:i]) for i in range(len(example))])
    g.same("SHEET.md's tags", [(int(c[0]), c[1], c[4] == 'no') for c in numbered if len(c) == 5],
           [(number, tag.name, tag.wanted) for number, tag in sheets.TAGS.items()])
    g.true("SHEET.md's output", ''.join('    %s\n' % line for line in program(WITHIN).split('\n')[:-1]) in page)
    g.same("the samples' rows", run('make_sheet', NO_ROWS + ['--rows', path('samples', 'rows.txt'), '110001', '111110'])[1], WORKED)

    for name in ['README.md'] + sorted(os.path.relpath(p, ROOT) for p in glob.glob(path('docs', '**', '*.md'), recursive=True)):
        page = text(name)
        for link in re.findall(LINK, page):
            g.true('%s links %s' % (name, link), os.path.exists(path(os.path.dirname(name), link)))
        if re.search(CITES, page):
            g.true('%s cites papers and links what they are' % name, re.search('^## Sources|#sources', page, re.M))
    for case, given, printed in (('a refusal', '/dev/null', b'refused 13 0\n'), ('input that cannot be read', '/', b'')):
        handle = os.open(given, os.O_RDONLY)
        done = subprocess.run([PROGRAM], stdin=handle, stdout=subprocess.PIPE, stderr=subprocess.DEVNULL)
        os.close(handle)
        g.same('the program, as README.md says, ends with 0 at ' + case, (done.returncode, done.stdout), (0, printed))
    g.same('README.md links both', sorted({'docs/REFUSALS.md', 'docs/SHEET.md'} - set(re.findall(LINK, text('README.md')))), [])
    g.end()


# ---- README's command lines
NOT_RUN = {'.ci/run': 'the gate', 'bench/run': 'the benchmarks', 'tools/check': 'this script'}
FOR_ALL = ['bindings/build', 'bench/run --tests']       # the first lines of the blocks that need gcc or cargo
BLOCK = r'^( *)```([a-z]*)\n(.*?)^\1```$'
COMMAND = r'^ {2,}(?:rt|gcc|cargo|python3|sh|tools/|bench/|target/|\.ci/|reference/)[ a-z].*'


def shell_blocks(page):
    """Each block of commands, and the output that stands right after it or None."""
    found = list(re.finditer(BLOCK, page, re.M | re.S))
    for m, after in zip(found, found[1:] + [None]):
        if m[2] == 'sh':
            follows = after and after[2] == 'text' and not page[m.end():after.start()].strip()
            yield plain(m), plain(after) if follows else None


def plain(m):
    return re.sub('^' + m[1], '', m[3], flags=re.M)


def linked(directory):
    """Links to all that stands at the root, so that what a command writes there is not left in the tree."""
    os.makedirs(path('target'), exist_ok=True)
    for name in os.listdir(ROOT):
        if name != '.git' and not name.endswith('.sheet'):
            os.symlink(path(name), os.path.join(directory, name))


def readme(directory, everything):
    g = Group('README.md, command lines')
    linked(directory)
    page, left_out, met = text('README.md'), [], []
    for body, output in shell_blocks(page):
        first = body.split('\n')[0]
        if body.strip() in NOT_RUN or first in FOR_ALL:
            met.append(first)
        if body.strip() in NOT_RUN:
            g.true(first + ' can be run', os.access(path(first), os.X_OK))
        elif first in FOR_ALL and not everything:
            left_out.append(first)
        else:
            done = subprocess.run(['sh', '-e', '-c', body], cwd=directory, stdin=subprocess.DEVNULL, stdout=subprocess.PIPE,
                                  stderr=subprocess.PIPE, env=ENVIRONMENT)
            g.same(first, (done.returncode, done.stderr[-500:] if done.returncode else b''), (0, b''))
            if output is not None:
                g.same(first + ', what it prints', done.stdout.decode(), output)
    g.same('the lines that are treated apart are there', sorted(met), sorted([*NOT_RUN, *FOR_ALL]))
    g.same('commands outside the blocks', re.findall(COMMAND, re.sub(BLOCK, '', page, flags=re.M | re.S), re.M), [])
    g.end('; not run, only looked for: %s%s' % (', '.join('%s (%s)' % pair for pair in NOT_RUN.items()),
                                                '; only with --all: ' + ', '.join(left_out) if left_out else ''))


# ---- the tree
def tree_state():
    return subprocess.run(['git', 'status', '--porcelain', '--untracked-files=all'], cwd=ROOT, stdout=subprocess.PIPE,
                          check=True).stdout


def tree(before):
    g = Group('the tree')
    g.same('nothing new and nothing changed', tree_state(), before)
    g.same('no compiled Python', glob.glob(path('tools', '**', '__pycache__'), recursive=True), [])
    for name, status in (('my.sheet', 0), ('samples/my.sheet', 1)):
        done = subprocess.run(['git', 'check-ignore', '-q', '--no-index', name], cwd=ROOT)
        g.same('whether git ignores ' + name, done.returncode, status)
    g.end()
