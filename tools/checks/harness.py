"""Running a tool, groups of named cases, and what several groups use."""
import os
import re
import subprocess

ROOT = os.path.dirname(os.path.dirname(os.path.dirname(os.path.abspath(__file__))))
PROGRAM = os.path.join(ROOT, 'target', 'bin', 'decode_sheet')
ENVIRONMENT = {name: value for name, value in os.environ.items() if name != 'DECODE_SHEET'}
CODE = ['6', '3', '100011,010101,001110']
NO_ROWS = CODE[:2]
FAILURES = []


# ---- the tree
def path(*parts):
    return os.path.join(ROOT, *parts)


def contents(*parts):
    with open(path(*parts), 'rb') as f:
        return f.read()


def text(*parts):
    return contents(*parts).decode()


WORKED = contents('samples', 'worked.sheet')
WITHIN = contents('samples', 'within.sheet')


def stored_sheets():
    """The titles and sheets of crates/vectors_sheet: a title after its length in a byte, a sheet after its length in two."""
    records, at = contents('crates', 'vectors_sheet', 'stdin'), 0
    while at < len(records):
        start = at + 1 + records[at]
        end = start + 2 + int.from_bytes(records[start:start + 2], 'big')
        yield records[at + 1:start].decode(), records[start + 2:end]
        at = end


# ---- running
def run(tool, args, given=b'', **how):
    """A tool's exit status, output and error output; given is its standard input."""
    how = {'stdout': subprocess.PIPE, 'stderr': subprocess.PIPE, 'env': ENVIRONMENT, **how}
    if 'stdin' not in how:
        how['input'] = given
    done = subprocess.run([path('tools', tool)] + args, **how)
    return done.returncode, done.stdout, done.stderr


def run_closed(tool, args, closing):
    """The same where an end is closed by the shell: "<&-" or ">&-"."""
    done = subprocess.run(['sh', '-c', '"$0" "$@" ' + closing, path('tools', tool)] + args, env=ENVIRONMENT,
                          stdout=subprocess.PIPE, stderr=subprocess.PIPE)
    return done.returncode, done.stdout, done.stderr


def program(sheet):
    """What decode_sheet prints."""
    return subprocess.run([PROGRAM], input=sheet, stdout=subprocess.PIPE, check=True).stdout.decode()


class Files:
    """Files of a directory that is gone at the end."""

    def __init__(self, directory):
        self.directory = directory

    def put(self, name, data, mode=0o644):
        """Its path."""
        where = os.path.join(self.directory, name)
        with open(where, 'wb') as f:
            f.write(data if isinstance(data, bytes) else data.encode())
        os.chmod(where, mode)
        return where

    def fake(self, prints, after=''):
        """A program that reads its input and prints this, whatever the sheet."""
        return self.put('fake', "#!/bin/sh\ncat > /dev/null\nprintf '%s'\n%s\n" % (prints.replace('\n', '\\n'), after), 0o755)


# ---- cases
class Group:
    """Named cases; a line for all of them, and one for each that fails."""

    def __init__(self, name):
        self.name, self.cases, self.failed = name, 0, 0

    def same(self, case, got, wanted):
        self.cases += 1
        if got != wanted:
            self.failed += 1
            FAILURES.append('%s: %s' % (self.name, case))
            print('FAILED: %s: got %r, wanted %r' % (FAILURES[-1], got, wanted))

    def true(self, case, fact):
        self.same(case, bool(fact), True)

    def refused(self, case, tool, args, message, status=1, given=b''):
        """Nothing is written, and one line says why; of a message that ends in .. only the start is known."""
        got, written, error = run(tool, args, given)
        wanted = ('%s: %s\n' % (tool, message)).encode()
        if message.endswith('..'):
            wanted = wanted[:-3] + error[len(wanted) - 3:]
            self.same(case + ', one line', (error.count(b'\n'), error[-1:]), (1, b'\n'))
        self.same(case, (got, written, error), (status, b'', wanted))

    def end(self, note=''):
        result = '%d FAILED' % self.failed if self.failed else 'all well'
        print('%s: %d cases, %s%s' % (self.name, self.cases, result, note), flush=True)
