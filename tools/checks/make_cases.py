"""make_sheet with good and bad input, and with --faulty."""
import os

from checks.harness import CODE, NO_ROWS, WITHIN, WORKED, Group, program, run

HEAD = WORKED[:23]                # n, k and the rows
HOW = ' (--help says how it is called)'


def good(files):
    g = Group('make_sheet, good input')
    rows = files.put('rows', '\ufeff# the matrix\r\n\r\n100011\r\n  010101\t\r\n001110 # the last')
    words = files.put('words', '110001\n\n# none here\n111110\n')
    two = ['110001', '111110']
    for case, args, given, wanted in (
            ('words on the command line', CODE + two, b'', WORKED),
            ('a radius, last', CODE + two + ['-r', '1'], b'', WITHIN),
            ('a radius, between', CODE + ['-r', '1'] + two, b'', WITHIN),
            ('rows by file, words on the command line', NO_ROWS + ['--rows', rows] + two, b'', WORKED),
            ('rows and words by file', NO_ROWS + ['--rows', rows, '--words', words, '-r', '1'], b'', WITHIN),
            ('words on standard input', CODE, b'110001\n111110', WORKED),
            ('words on standard input, named', CODE + ['--words', '-'], b'110001 # a\n\n  111110\n', WORKED),
            ('rows on standard input', NO_ROWS + ['--rows', '-'] + two, b'100011\n010101\n001110\n', WORKED),
            ('no words, as asked', CODE + ['--no-words'], b'', HEAD + b'\5\0\0'),
            ('512 words', CODE, b'110001\n' * 512, HEAD + b'\5\x08\0' + b'\x23\0\0\0' * 512),
            ('32 digits', ['32', '1', '1' * 31 + '0', '0' * 31 + '1'], b'',
             b'\1\0\1\x20\2\0\1\1\3\0\4\xff\xff\xff\x7f\5\0\4\0\0\0\x80'),
            ('k 0 and no rows', ['6', '0', '', '110001'], b'', b'\1\0\1\6\2\0\1\0\3\0\0\5\0\4\x23\0\0\0')):
        g.same(case, run('make_sheet', args, given), (0, wanted, b''))
    g.end()


def bad(files):
    g = Group('make_sheet, bad input')
    two_a_line = files.put('two_a_line', '110001\n110001 111110\n')
    short_row = files.put('short_row', '100011\n\n01010\n001110\n')
    comments = files.put('comments', '# none\n')
    latin = files.put('latin', b'110001 # \xe9\n')
    large = files.put('large', '#' * (1 << 20) + '\n')
    missing = os.path.join(files.directory, 'missing')
    for case, args, given, message in (
            # digits
            ('a word with a digit missing', CODE + ['111110', '11000'], b'', 'word 1 has 5 digits, n is 6: 11000'),
            ('a word with a digit missing, on standard input', CODE, b'110001\n' * 4 + b'# four\n11000\n',
             'word 4 has 5 digits, n is 6: 11000 (standard input, line 6)'),
            ('a word with a digit too many', CODE + ['1100010'], b'', 'word 0 has 7 digits, n is 6: 1100010'),
            ('an empty word', CODE + ['110001', ''], b'', 'word 1 has 0 digits, n is 6: nothing'),
            ('a word with another character', CODE + ['11000l'], b'', 'word 0 has other characters than 0 and 1: 11000l'),
            ('a word of 33 digits', CODE + ['1' * 33], b'', 'word 0 has 33 digits, at most 32 can be stored: ' + '1' * 33),
            ('a short row', ['6', '3', '100011,01010,001110', '110001'], b'', 'row 1 has 5 digits, n is 6: 01010'),
            ('a short row, by file', NO_ROWS + ['--rows', short_row, '110001'], b'',
             'row 1 has 5 digits, n is 6: 01010 (%s, line 3)' % short_row),
            ('an empty row', ['6', '3', '100011,,001110', '110001'], b'', 'row 1 has 0 digits, n is 6: nothing'),
            ('a row with another character', ['6', '3', '100011 010101,001110,1', '110001'], b'',
             'row 0 has other characters than 0 and 1: 100011 010101'),
            # how many
            ('an empty row besides', ['6', '3', '100011,010101,001110,', '110001'], b'', '4 rows are given, k is 3'),
            ('a row missing', ['6', '3', '100011,010101', '110001'], b'', '2 rows are given, k is 3'),
            ('a row too many', ['6', '2', '100011,010101,001110', '110001'], b'', '3 rows are given, k is 2'),
            ('no row', ['6', '3', '', '110001'], b'', '0 rows are given, k is 3'),
            ('513 words', CODE, b'110001\n' * 513, '513 words are given, a batch has at most 512'),
            ('n 33', ['33', '1', '1' * 33, '1' * 33], b'', 'n is 33, rows and words have 1 to 32 digits'),
            ('n 0', ['0', '0', '', '--no-words'], b'', 'n is 0, rows and words have 1 to 32 digits'),
            # arguments
            ('n no number', ['6x', '3', 'x', 'x'], b'', "argument n: '6x' is not a number from 0 to 255" + HOW),
            ('n in other digits', ['\u0666', '3', 'x', 'x'], b'', "argument n: '\u0666' is not a number from 0 to 255" + HOW),
            ('k 256', ['6', '256', 'x', 'x'], b'', "argument k: '256' is not a number from 0 to 255" + HOW),
            ('radius 256', CODE + ['-r', '256', '110001'], b'', "argument -r/--radius: '256' is not a number from 0 to 255" + HOW),
            ('two radii', CODE + ['-r', '1', '-r', '0', '110001'], b'', '-r is given twice' + HOW),
            ('two files of words', CODE + ['--words', 'a', '--words', 'b'], b'', '--words is given twice' + HOW),
            ('no arguments', [], b'', 'the following arguments are required: n, k..'),
            ('an unknown option', CODE + ['--row', '110001'], b'', 'unrecognized arguments: --row..'),
            # where rows and words come from
            ('no rows named', NO_ROWS, b'', 'no rows: give them with commas between them, or by --rows FILE'),
            ('standard input empty', CODE, b'', 'standard input has no words; --no-words makes an empty batch'),
            ('a file without words', CODE + ['--words', comments], b'', comments + ' has no words; --no-words makes an empty batch'),
            ('words from two places', CODE + ['110001', '--words', comments], b'',
             'words on the command line, --words and --no-words exclude each other'),
            ('words and no words', CODE + ['110001', '--no-words'], b'',
             'words on the command line, --words and --no-words exclude each other'),
            ('rows and words on standard input', NO_ROWS + ['--rows', '-', '--words', '-'], b'110001',
             'rows and words cannot both come from standard input'),
            ('rows on standard input, no words', NO_ROWS + ['--rows', '-'], b'100011\n010101\n001110\n',
             'rows and words cannot both come from standard input'),
            # files
            ('two words on a line', CODE + ['--words', two_a_line], b'',
             two_a_line + ', line 2: the line has 2 parts, wanted is one word: 110001 111110'),
            ('a file that is missing', CODE + ['--words', missing], b'', missing + ' cannot be read: No such file or directory'),
            ('a directory', NO_ROWS + ['--rows', files.directory, '110001'], b'',
             files.directory + ' cannot be read: Is a directory'),
            ('a file that is no text', CODE + ['--words', latin], b'', latin + ' is no text in UTF-8'),
            ('a file without end', CODE + ['--words', '/dev/zero'], b'', '/dev/zero has more than 1048576 bytes'),
            ('a file of 1 MiB and a byte', CODE + ['--words', large], b'', large + ' has more than 1048576 bytes')):
        g.refused(case, 'make_sheet', args, message, given=given)
    g.end()


def faulty():
    g = Group('make_sheet --faulty, and what the program says')
    for case, args, given, wanted in (
            ('nothing wrong', CODE + ['110001'], b'', '6 3 3 1\n010101 2\nclean 0 mended 1 far 0 places 2\n'),
            ('a short word', CODE + ['11000'], b'', '6 3 3 1\n111000 1\nclean 0 mended 1 far 0 places 1\n'),
            ('an empty word', CODE + [''], b'', '6 3 3 1\n000000 0\nclean 1 mended 0 far 0 places 0\n'),
            ('a word with a one at place 6', CODE + ['110001', '0000001'], b'', 'refused 7 1\n'),
            ('a row with a one at place 6', ['6', '3', '100011,0101011,001110', '110001'], b'', 'refused 3 1\n'),
            ('an empty row', ['6', '3', '100011,,001110', '110001'], b'', 'refused 4 1\n'),
            ('a row missing', ['6', '3', '100011,010101', '110001'], b'', 'refused 2 0\n'),
            ('513 words', CODE, b'110001\n' * 513, 'refused 6 0\n'),
            ('n 40', ['40', '3'] + CODE[2:] + ['110001'], b'', 'refused 1 0\n'),
            ('more than 4,096 bytes', CODE, b'110001\n' * 1100, 'refused 12 4096\n')):
        status, sheet, error = run('make_sheet', args + ['--faulty'], given)
        g.same(case, (status, program(sheet), error), (0, wanted, b''))
    for case, word, given, message in (
            ('33 digits', ['0' * 33], b'', 'word 0 has 33 digits, at most 32 can be stored: ' + '0' * 33),
            ('another character', ['2'], b'', 'word 0 has other characters than 0 and 1: 2'),
            ('more than a field', [], b'1\n' * 16384, '16384 words are given, a field holds at most 16383')):
        g.refused(case, 'make_sheet', CODE + ['--faulty'] + word, message, given=given)
    g.end()
