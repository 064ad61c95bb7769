"""show_sheet: what it says, and that the program says the same of every stored sheet."""
import re

from checks.harness import WITHIN, Group, program, run, stored_sheets

SHOWN = """\
38 bytes
    0  tag 1 (n), 1 byte
       6
    4  tag 2 (k), 1 byte
       3
    8  tag 3 (rows), 12 bytes
         0  100011
         1  010101
         2  001110
   23  tag 4 (radius), 1 byte
       1
   27  tag 5 (words), 8 bytes
         0  110001
         1  111110
"""
LONG = b'more than 4096 bytes\nbyte 4096: the sheet is longer than 4096 bytes: refused 12 4096\n'


def cases(files):
    g = Group('show_sheet')
    whole = files.put('whole', WITHIN)
    g.same('a sheet', run('show_sheet', [whole]), (0, SHOWN.encode(), b''))
    g.same('on standard input', run('show_sheet', [], WITHIN), (0, SHOWN.encode(), b''))
    g.same('ones beyond n', run('show_sheet', [], WITHIN[:-1] + b'\x80')[1].decode().split('\n')[-2],
           '         1  ' + '11111' + '0' * 26 + '1  (a one beyond its 6 places)')
    # the number of lines before the one that says what is wrong
    for case, sheet, lines, message in (
            ('a length that is no multiple of 4', WITHIN[:10] + b'\x0d' + WITHIN[11:], 5,
             'byte 8: length 13 is not a multiple of 4: refused 12 8'),
            ('a length that is not 1', b'\1\0\2\6\6', 1, 'byte 0: length 2 is not 1: refused 12 0'),
            ('a cut field', WITHIN[:-1], 11, 'byte 27: the sheet is cut: length 8 goes past the end, 7 left: refused 12 27'),
            ('two bytes besides', WITHIN + b'\6\0', 14,
             'byte 38: the sheet is cut: tag and length take 3 bytes, 2 left: refused 12 38'),
            ('an unknown tag', WITHIN + b'\6\0\0', 14, 'byte 38: tag 6 is unknown, tags are 1 to 5: refused 13 38'),
            ('a tag twice', WITHIN[:4] + WITHIN, 3, 'byte 4: tag 1 stands after tag 1, tags rise: refused 13 4'),
            ('a tag missing', WITHIN[:27], 11, 'byte 27: tag 5 (words) is missing: refused 13 27'),
            ('an empty sheet', b'', 1, 'byte 0: tag 1 (n) is missing: refused 13 0')):
        status, shown, error = run('show_sheet', [], sheet)
        before = ['%d bytes' % len(sheet)] + SHOWN.split('\n')[1:lines]
        g.same(case, (status, shown.decode(), error), (1, '\n'.join(before + [message, '']), b''))
    g.same('4097 bytes', run('show_sheet', [], bytes(4097)), (1, LONG, b''))
    g.same('a sheet without end', run('show_sheet', ['/dev/zero']), (1, LONG, b''))
    g.refused('a file that is missing', 'show_sheet', ['/missing'], '/missing cannot be read: No such file or directory')
    g.refused('a directory', 'show_sheet', ['/'], '/ cannot be read: Is a directory')
    g.refused('two files', 'show_sheet', [whole, whole], 'unrecognized arguments: %s..' % whole)
    g.end()


def stored():
    """The last line has the program's refusal under 12 or 13; every other sheet is shown whole."""
    g = Group('show_sheet and the program, stored sheets')
    unreadable = 0
    for title, sheet in stored_sheets():
        said = program(sheet)
        status, shown, error = run('show_sheet', [], sheet)
        verdict = re.search(r': (refused 1[23] [0-9]+\n)\Z', shown.decode())
        readable = not re.match('refused 1[23] ', said)
        unreadable += not readable
        g.same(title, (status, verdict and verdict[1], error), (0, None, b'') if readable else (1, said, b''))
    g.true('both kinds arise', 0 < unreadable < g.cases)
    g.end(', %d of the sheets cannot be read' % unreadable)
