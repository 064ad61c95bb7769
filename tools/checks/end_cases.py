"""Each tool with --help, on terminals, closed pipes, full disks and closed ends."""
import os
import pty

from checks.harness import CODE, Group, path, run, run_closed

NO_WORDS = 'no words: give them after the rows, by --words FILE or on standard input, or say --no-words\n'


def on_terminal(tool, args, end):
    """The status and error output, and what the terminal got, where this end (stdin or stdout) is a terminal."""
    ours, theirs = pty.openpty()
    try:
        status, _, error = run(tool, args, **{end: theirs})
        os.set_blocking(ours, False)
        try:
            got = os.read(ours, 9999)
        except BlockingIOError:
            got = b''
    finally:
        os.close(ours)
        os.close(theirs)
    return status, error.decode(), got


def to_closed_pipe(tool, args):
    reader, writer = os.pipe()
    os.close(reader)
    try:
        return run(tool, args, stdout=writer)
    finally:
        os.close(writer)


def to_full_disk(tool, args):
    with open('/dev/full', 'wb') as full:
        return run(tool, args, stdout=full)


def terminals():
    g = Group('terminals')
    g.same('make_sheet, a sheet to a terminal', on_terminal('make_sheet', CODE + ['110001'], 'stdout'),
           (1, 'make_sheet: standard output is a terminal; write the sheet to a file: make_sheet .. > FILE\n', b''))
    g.same('make_sheet, no words and a terminal', on_terminal('make_sheet', CODE, 'stdin'), (1, 'make_sheet: ' + NO_WORDS, b''))
    g.same('decode, no words and a terminal', on_terminal('decode', CODE, 'stdin'), (2, 'decode: ' + NO_WORDS, b''))
    g.same('show_sheet, no file and a terminal', on_terminal('show_sheet', [], 'stdin'),
           (1, 'show_sheet: standard input is a terminal; name a file\n', b''))
    status, error, got = on_terminal('decode', CODE + ['001110'], 'stdout')
    g.same('decode to a terminal', (status, error, got.split(b'\r\n')[0]), (0, '', b'0 001110 0'))
    g.end()


def closed():
    """With the exit status when all is well and when it is not."""
    g = Group('closed pipes, full disks, closed ends, --help')
    for tool, args, well, unusable in (
            ('make_sheet', CODE + ['110001'], 0, 1),
            ('show_sheet', [path('samples', 'within.sheet')], 0, 1),
            ('decode', CODE + ['-r', '1', '110001'], 3, 2)):
        full = ('%s: standard output cannot be written: No space left on device\n' % tool).encode()
        shut = ('%s: standard output is closed\n' % tool).encode()
        for case, words, status in ((tool, args, well), (tool + ' --help', ['--help'], 0)):
            g.same(case + ', a closed pipe', to_closed_pipe(tool, words), (status, None, b''))
            g.same(case + ', a full disk', to_full_disk(tool, words), (unusable, None, full))
        g.same(tool + ', output closed', run_closed(tool, args, '>&-'), (unusable, b'', shut))
        status, told, error = run(tool, ['--help'])
        g.same(tool + ' --help', (status, told.split()[:2], error), (0, [b'usage:', tool.encode()], b''))
    for tool, args, unusable, message in (
            ('make_sheet', CODE, 1, NO_WORDS),
            ('show_sheet', [], 1, 'standard input is closed\n'),
            ('decode', CODE + ['--words', '-'], 2, 'standard input is closed\n')):
        g.same(tool + ', input closed', run_closed(tool, args, '<&-'), (unusable, b'', ('%s: %s' % (tool, message)).encode()))
    g.end()
