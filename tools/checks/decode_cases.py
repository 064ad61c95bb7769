"""decode: its output, errors and exit statuses, with the program and with programs that print something else."""
import csv
import io
import json
import os

import refusals
import sheets
from checks.harness import CODE, ENVIRONMENT, NO_ROWS, ROOT, Group, path, program, run, stored_sheets

SAMPLES = NO_ROWS + ['--rows', path('samples', 'rows.txt'), '--words', path('samples', 'words.txt')]
WITHIN = 'within radius 1, n 6 k 3 dmin 3 t 1\n'
NEAREST = 'nearest, n 6 k 3 dmin 3 t 1\n'
ONE_FAR = 'clean 0 mended 0 far 1 places 0\n'
# (32,20), the longest words: nineteen rows, each the one before with its digits moved by a place, and 32 ones
LONGEST = ['32', '20', ','.join(['0' * i + '10010110111' + '0' * (21 - i) for i in range(19)] + ['1' * 32])]


def as_text():
    g = Group('decode, text')
    for case, args, given, status, wanted in (
            ('within a radius, a far word', SAMPLES + ['-r', '1'], b'', 3,
             'w1 ------ far\nw2 110110 1\nw3 001110 0\n# words 3 clean 1 mended 1 guess 0 far 1 places 1; ' + WITHIN),
            ('nearest, a guess', SAMPLES, b'', 0,
             'w1 010101 2 guess\nw2 110110 1\nw3 001110 0\n# words 3 clean 1 mended 1 guess 1 far 0 places 3; ' + NEAREST),
            ('words without ids', CODE + ['111110', '001110', '-r', '1'], b'', 0,
             '0 110110 1\n1 001110 0\n# words 2 clean 1 mended 1 guess 0 far 0 places 1; ' + WITHIN),
            ('on standard input, ids the same', CODE + ['-r', '1'], b'a 111110\na 011110\n', 0,
             'a 110110 1\na 001110 1\n# words 2 clean 0 mended 2 guess 0 far 0 places 2; ' + WITHIN),
            ('300 words', CODE + ['-r', '1'], b'111110\n' * 299 + b'110001\n', 3, ''.join('%d 110110 1\n' % i for i in range(299))
             + '299 ------ far\n# words 300 clean 0 mended 299 guess 0 far 1 places 299; ' + WITHIN),
            ('32 places', LONGEST + ['-r', '2', '1' * 31 + '0', '111' + '0' * 29, '1' * 32], b'', 3,
             '0 %s 1\n1 %s far\n2 %s 0\n' % ('1' * 32, '-' * 32, '1' * 32)
             + '# words 3 clean 1 mended 1 guess 0 far 1 places 1; within radius 2, n 32 k 20 dmin 5 t 2\n'),
            ('no words', CODE + ['--no-words'], b'', 0, '# words 0 clean 0 mended 0 guess 0 far 0 places 0; ' + NEAREST)):
        g.same(case, run('decode', args, given), (status, wanted.encode(), b''))
    g.end()


def as_tables(files):
    g = Group('decode, --csv, --json, --program')
    listed = [['w1', '110001', None, None, 'far'], ['w2', '111110', '110110', 1, 'mended'], ['w3', '001110', '001110', 0, 'clean']]
    table = b'id,received,codeword,count,outcome\nw1,110001,,,far\nw2,111110,110110,1,mended\nw3,001110,001110,0,clean\n'
    g.same('--csv', run('decode', SAMPLES + ['-r', '1', '--csv']),
           (3, table, ('decode: words 3 clean 1 mended 1 guess 0 far 1 places 1; ' + WITHIN).encode()))
    found = run('decode', CODE + ['--csv'], 'a,"\u00e9 110001\n'.encode())[1].decode()
    g.same('--csv, an id with comma and quote', list(csv.reader(io.StringIO(found)))[1],
           ['a,"\u00e9', '110001', '010101', '2', 'guess'])
    status, found, error = run('decode', SAMPLES + ['-r', '1', '--json'])
    g.same('--json', (status, json.loads(found), error),
           (3, {'n': 6, 'k': 3, 'dmin': 3, 't': 1, 'radius': 1,
                'words': [dict(zip(('id', 'received', 'codeword', 'count', 'outcome'), w)) for w in listed],
                'summary': {'words': 3, 'clean': 1, 'mended': 1, 'guess': 0, 'far': 1, 'places': 1}}, b''))
    found = json.loads(run('decode', SAMPLES + ['--json'])[1])
    g.same('--json, nearest', (found['radius'], found['words'][0]['outcome']), (None, 'guess'))

    other = files.fake('6 3 9 4\n111111 4\nclean 0 mended 1 far 0 places 4\n')
    line = b'0 111111 4\n# words 1 clean 0 mended 1 guess 0 far 0 places 4; nearest, n 6 k 3 dmin 9 t 4\n'
    g.same('--program', run('decode', CODE + ['110001', '--program', other]), (0, line, b''))
    g.same('the environment variable', run('decode', CODE + ['110001'], env={**ENVIRONMENT, 'DECODE_SHEET': other}), (0, line, b''))
    g.end()


def stored():
    """From text to a table, for each stored sheet that the program accepts: what the program prints."""
    g = Group('decode and the program, stored sheets')
    far = 0
    for title, sheet in stored_sheets():
        said = program(sheet)
        content = {} if said.startswith('refused') else {sheets.TAGS[tag].name: c for _, tag, c in sheets.fields(sheet)}
        if not content.get('words'):
            continue
        n, k = content['n'][0], content['k'][0]
        rows, words = ([sheets.digits_of(n, w) for w in sheets.words_in(content[name])] for name in ('rows', 'words'))
        radius = ['-r', str(content['radius'][0])] if 'radius' in content else []
        status, found, _ = run('decode', [str(n), str(k), ','.join(rows)] + radius + ['--csv'], '\n'.join(words).encode())
        table = list(csv.DictReader(io.StringIO(found.decode())))
        printed = ['%s %s' % ((w['received'], 'far') if w['outcome'] == 'far' else (w['codeword'], w['count'])) for w in table]
        g.same(title, (printed, [w['received'] for w in table], status),
               (said.split('\n')[1:-2], words, 3 if ' far\n' in said else 0))
        far += status == 3
    g.true('batches with and without far words arise', 0 < far < g.cases)
    g.end()


def bad(files):
    g = Group('decode, bad input')
    mixed = files.put('mixed', 'a 110001\n111110\n')
    for case, args, given, message in (
            ('a word with a digit missing', CODE, b'a 110001\nb 11000\n',
             'word 1 has 5 digits, n is 6: b 11000 (standard input, line 2)'),
            ('a short row', ['6', '3', '100011,010101,00111', '110001'], b'', 'row 2 has 5 digits, n is 6: 00111'),
            ('a row missing', ['6', '3', '100011,010101', '110001'], b'', '2 rows are given, k is 3'),
            ('513 words', CODE, b'110001\n' * 513, '513 words are given, a batch has at most 512'),
            ('no words', CODE, b'', 'standard input has no words; --no-words makes an empty batch'),
            ('an id missing', CODE + ['--words', mixed], b'', mixed + ', line 2: an id beside every word or beside none'),
            ('an id with blanks', CODE, b'a b 110001\n',
             'standard input, line 1: the line has 3 parts, wanted is an id and one word: a b 110001'),
            ('two words on a line', CODE, b'110001 111110\n',
             'word 0 has an id of 6 digits 0 and 1, which may be a word: 110001 111110 (standard input, line 1)'),
            ('an id with a control character', CODE, b'a\x1b[2J 110001\n',
             'word 0 has an id that cannot be printed: a\\x1b[2J 110001 (standard input, line 1)'),
            ('a word with a control character', CODE, b'\x1b[2J\n',
             'word 0 has other characters than 0 and 1: \\x1b[2J (standard input, line 1)')):
        g.refused(case, 'decode', args, message, given=given)
    for case, args, message in (
            ('an unknown option', CODE + ['--xml', '110001'], 'unrecognized arguments: --xml..'),
            ('two forms', CODE + ['--csv', '--json', '110001'], 'argument --json: not allowed with argument --csv..'),
            ('a file that is missing', CODE + ['--words', '/missing'], '/missing cannot be read: No such file or directory')):
        g.refused(case, 'decode', args, message, status=2)
    g.end()


def explained(number, value, named):
    cause = refusals.CAUSES[number]
    return 'refused %d %d: %s%s. %s' % (number, value, cause.meaning.format(value), named, cause.remedy)


def refused(files):
    """Three that the program gives for checked text; then each number, as if it had been given."""
    g = Group('decode, refusals explained')
    g.refused('dependent rows', 'decode', ['6', '3', '100011,010101,110110', '110001'],
              'refused 4 2: row 2 is a sum of earlier rows (a zero row is the empty sum): 110110. '
              'Compare this row and those before it with the matrix: one is mistyped or stands twice.')
    g.refused('n - k 13', 'decode', ['14', '1', '1' * 14, '1' * 14], explained(1, 0, ''))
    g.refused('a radius too large', 'decode', CODE + ['-r', '2', '110001'], explained(5, 0, ''))
    for number, cause in refusals.CAUSES.items():
        for value, row, word in ((1, ': 010101', ': b 111110 (standard input, line 2)'), (9, '', '')):
            named = {refusals.ROW: row, refusals.WORD: word}.get(cause.value, '')
            fake = files.fake('refused %d %d\n' % (number, value))
            g.refused('number %d, value %d' % (number, value), 'decode', CODE + ['--program', fake],
                      explained(number, value, named), given=b'a 110001\nb 111110\n')
    g.refused('an unknown number', 'decode', CODE + ['110001', '--program', files.fake('refused 99 0\n')],
              'refused 99 0: a number that is not in docs/REFUSALS.md')
    g.end()


def could_not_run(files):
    """Programs that are missing, fail, or print something else than decode_sheet can."""
    g = Group('decode, could not run')
    missing, no_program = os.path.join(files.directory, 'missing'), files.put('no_program', 'text')
    no_format = files.put('no_format', '\0', 0o755)
    for case, where, message in (
            ('missing', missing, '%s does not exist; in %s build it: tools/build' % (missing, ROOT)),
            ('not executable', no_program, no_program + ' cannot be run: Permission denied'),
            ('a directory', files.directory, files.directory + ' cannot be run: Permission denied'),
            ('no format', no_format, no_format + ' cannot be run: Exec format error')):
        g.refused(case, 'decode', CODE + ['110001', '--program', where], message, status=2)
    said, line = 'the program printed %d lines for 1 words, the first: %s', 'the program printed for word 0: '
    for case, prints, after, message in (
            ('nothing printed', '', '', 'FAKE printed nothing'),
            ('an exit status', '6 3 3 1\n110001 far\n' + ONE_FAR, 'exit 5', 'FAKE failed with status 5: '),
            ('a signal', '6 3 3 1\n110001 far\n' + ONE_FAR, 'kill -9 $$', 'FAKE failed with status -9: '),
            ('a complaint', '6 3 3 1\n110001 far\n' + ONE_FAR, 'echo cannot >&2', 'FAKE failed with status 0: cannot'),
            ('a line missing', '6 3 3 1\n' + ONE_FAR, '', said % (2, '6 3 3 1')),
            ('a line too many', '6 3 3 1\n110001 far\n110001 far\n' + ONE_FAR, '', said % (4, '6 3 3 1')),
            ('a line cut', '6 3 3 1\n110001 far\n' + ONE_FAR[:-1], '', said % (2, '6 3 3 1')),
            ('another code', '7 3 3 1\n110001 far\n' + ONE_FAR, '', said % (3, '7 3 3 1')),
            ('a refusal and more', 'refused 4 2\n110001 far\n' + ONE_FAR, '', said % (3, 'refused 4 2')),
            ('other text', 'hello\n', '', said % (1, 'hello')),
            ('a word cut', '6 3 3 1\n11001 far\n' + ONE_FAR, '', line + '11001 far'),
            ('no count', '6 3 3 1\n010101 -\n' + ONE_FAR, '', line + '010101 -'),
            ('another word far', '6 3 3 1\n010101 far\n' + ONE_FAR, '', line + '010101 far'),
            ('a count above the radius', '6 3 3 1\n010101 2\nclean 0 mended 1 far 0 places 2\n', '', line + '010101 2'),
            ('no closing line', '6 3 3 1\n110001 far\n', '', said % (2, '6 3 3 1')),
            ('another closing line', '6 3 3 1\n110001 far\nclean 0 mended 0 far 1 places 255\n', '',
             'the program printed as its closing line: clean 0 mended 0 far 1 places 255; its lines add up to: ' + ONE_FAR[:-1])):
        fake = files.fake(prints, after)
        g.refused(case, 'decode', CODE + ['-r', '1', '110001', '--program', fake], message.replace('FAKE', fake), status=2)
    g.refused('far in nearest reading', 'decode', CODE + ['110001', '--program', files.fake('6 3 3 1\n110001 far\n' + ONE_FAR)],
              line + '110001 far', status=2)
    g.end()
