"""What the tools share at the command line: errors of one line, a matrix and words in text, bytes to standard output."""
import argparse
import os
import re
import sys
from typing import NamedTuple, Optional

from sheets import MAX_FIELD, MAX_WORDS, WIDTH

MAX_TEXT = 1 << 20                # bytes of a file of rows or words


# ---- errors, output, the end
class Problem(Exception):
    """Input that is refused: one line for the user."""


class Unusable(Problem):
    """Something else than the input is wrong: the arguments, a file, the program."""


class Parser(argparse.ArgumentParser):
    def __init__(self, name, description):
        super().__init__(prog=name, description=description, allow_abbrev=False,
                         formatter_class=argparse.RawDescriptionHelpFormatter)

    def error(self, message):
        raise Unusable(message + ' (--help says how it is called)')

    def print_help(self, file=None):
        put(self.format_help().encode())


class Once(argparse.Action):
    """An option that may not be given twice."""

    def __call__(self, parser, namespace, value, option=None):
        if getattr(namespace, self.dest) is not None:
            parser.error('%s is given twice' % option)
        setattr(namespace, self.dest, value)


def put(data):
    """Writes to standard output. A reader that has gone is no error."""
    try:
        while data:
            data = data[os.write(1, data):]
    except BrokenPipeError:
        pass
    except OSError as e:
        raise Unusable('standard output cannot be written: %s' % e.strerror)


def complain(name, text):
    """One line on standard error; characters that cannot be printed are named."""
    line = ''.join(c if c.isprintable() else ascii(c)[1:-1] for c in '%s: %s' % (name, text))
    try:
        os.write(2, (line + '\n').encode())
    except OSError:
        pass


def end(name, main, unusable=1):
    """Ends the process with the status that main gives; after a problem 1, or unusable where it is not the input's."""
    try:
        if sys.stdout is None:
            raise Unusable('standard output is closed')
        status = main()
    except Problem as p:
        complain(name, p)
        status = unusable if isinstance(p, Unusable) else 1
    except KeyboardInterrupt:
        status = 130
    sys.exit(status)


# ---- text
class Item(NamedTuple):
    """A row or a word in digits, its id if it has one, and the line that it stands on."""
    digits: str
    id: Optional[str] = None
    where: str = ''

    def __str__(self):
        return ' '.join(part for part in (self.id, self.digits or 'nothing', self.where and '(%s)' % self.where) if part)


def read(path, most):
    """At most so many bytes of a file, or of standard input for "-"."""
    try:
        if path != '-':
            with open(path, 'rb') as f:
                return f.read(most)
        if sys.stdin is None:
            raise Unusable('standard input is closed')
        return sys.stdin.buffer.read(most)
    except OSError as e:
        raise Unusable('%s cannot be read: %s' % (name_of(path), e.strerror))


def name_of(path):
    return 'standard input' if path == '-' else path


def lines(path):
    """What each line holds beside blanks and a comment, in parts, and where it stands."""
    data = read(path, MAX_TEXT + 1)
    if len(data) > MAX_TEXT:
        raise Problem('%s has more than %d bytes' % (name_of(path), MAX_TEXT))
    try:
        text = data.decode('utf-8-sig')
    except UnicodeDecodeError:
        raise Problem('%s is no text in UTF-8' % name_of(path))
    for number, line in enumerate(text.split('\n'), 1):
        parts = line.split('#')[0].split()
        if parts:
            yield parts, '%s, line %d' % (name_of(path), number)


def items(kind, path, with_ids):
    """One item a line: its digits, or where ids may stand before them, on every line or on none, the id and the digits."""
    found = []
    for parts, where in lines(path):
        if len(parts) > 1 + with_ids:
            wanted = 'an id and one %s' % kind if with_ids else 'one %s' % kind
            raise Problem('%s: the line has %d parts, wanted is %s: %s' % (where, len(parts), wanted, ' '.join(parts)))
        item = Item(parts[-1], parts[0] if len(parts) == 2 else None, where)
        if found and (item.id is None) != (found[0].id is None):
            raise Problem('%s: an id beside every word or beside none' % where)
        found.append(item)
    return found


def check_digits(kind, i, item, n, faulty):
    if set(item.digits) - {'0', '1'}:
        raise Problem('%s %d has other characters than 0 and 1: %s' % (kind, i, item))
    if len(item.digits) > WIDTH:
        raise Problem('%s %d has %d digits, at most %d can be stored: %s' % (kind, i, len(item.digits), WIDTH, item))
    if len(item.digits) != n and not faulty:
        raise Problem('%s %d has %d digits, n is %d: %s' % (kind, i, len(item.digits), n, item))


def check_id(i, item, n):
    if item.id is None:
        return
    if not item.id.isprintable():
        raise Problem('word %d has an id that cannot be printed: %s' % (i, item))
    if len(item.id) == n and not set(item.id) - {'0', '1'}:
        raise Problem('word %d has an id of %d digits 0 and 1, which may be a word: %s' % (i, n, item))


# ---- the matrix and the words
class Batch(NamedTuple):
    n: int
    k: int
    radius: Optional[int]
    rows: list
    words: list

    def digits(self):
        """The arguments of sheets.sheet."""
        return self.n, self.k, [r.digits for r in self.rows], self.radius, [w.digits for w in self.words]


def byte(text):
    if not re.fullmatch('[0-9]{1,3}', text, re.ASCII) or int(text) > 255:
        raise argparse.ArgumentTypeError('%r is not a number from 0 to 255' % text)
    return int(text)


def add_batch(p):
    p.add_argument('n', type=byte, help='places of a word')
    p.add_argument('k', type=byte, help='rows of the matrix')
    p.add_argument('rest', nargs='*', metavar='ROW,ROW,.. WORD',
                   help='the rows with commas between them (not with --rows), then the received words')
    p.add_argument('-r', '--radius', type=byte, action=Once, help='decode within this radius; without it, to the nearest codeword')
    p.add_argument('--rows', metavar='FILE', action=Once, help='the rows, one a line; - is standard input')
    p.add_argument('--words', metavar='FILE', action=Once, help='the words, one a line; - is standard input')
    p.add_argument('--no-words', action='store_true', help='an empty batch')


def given_rows(a):
    """The rows, and what is left of the command line."""
    if a.rows is not None:
        return items('row', a.rows, False), a.rest
    if not a.rest:
        raise Unusable('no rows: give them with commas between them, or by --rows FILE')
    return [Item(digits) for digits in a.rest[0].split(',')] if a.rest[0] else [], a.rest[1:]


def given_words(a, listed, with_ids):
    """From one of: the command line, --words, standard input."""
    if (len(listed) > 0) + (a.words is not None) + a.no_words > 1:
        raise Unusable('words on the command line, --words and --no-words exclude each other')
    if listed or a.no_words:
        return [Item(digits) for digits in listed]
    path = '-' if a.words is None else a.words
    if path == '-' and a.rows == '-':
        raise Unusable('rows and words cannot both come from standard input')
    if a.words is None and (sys.stdin is None or sys.stdin.isatty()):
        raise Unusable('no words: give them after the rows, by --words FILE or on standard input, or say --no-words')
    found = items('word', path, with_ids)
    if not found:
        raise Problem('%s has no words; --no-words makes an empty batch' % name_of(path))
    return found


def batch(a, with_ids=False, faulty=False):
    """What the command line says, checked: n digits in each row and word, k rows, 512 words. Faulty: only that it can be stored."""
    rows, rest = given_rows(a)
    words = given_words(a, rest, with_ids)
    if not faulty:
        if not 1 <= a.n <= WIDTH:
            raise Problem('n is %d, rows and words have 1 to %d digits' % (a.n, WIDTH))
        if len(rows) != a.k:
            raise Problem('%d rows are given, k is %d' % (len(rows), a.k))
        if len(words) > MAX_WORDS:
            raise Problem('%d words are given, a batch has at most %d' % (len(words), MAX_WORDS))
    for kind, listed in (('row', rows), ('word', words)):
        if 4 * len(listed) > MAX_FIELD:
            raise Problem('%d %ss are given, a field holds at most %d' % (len(listed), kind, MAX_FIELD // 4))
        for i, item in enumerate(listed):
            check_digits(kind, i, item, a.n, faulty)
    for i, item in enumerate(words):
        check_id(i, item, a.n)
    return Batch(a.n, a.k, a.radius, rows, words)
