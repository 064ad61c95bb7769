"""bench/run and bindings/check: their words, and the declarations. What they build and run is README's `bench/run --tests`."""
import os
import subprocess

from checks.harness import ENVIRONMENT, Group, contents, path

SEED = "bench/run: RELAY_SEED is a decimal number below 2^64, not '%s'\n"


def run(command, *words, **variables):
    done = subprocess.run([path(*command), *words], env={**ENVIRONMENT, **variables}, stdin=subprocess.DEVNULL,
                          stdout=subprocess.PIPE, stderr=subprocess.PIPE)
    return done.returncode, done.stdout.decode(), done.stderr.decode()


def state():
    return contents('docs', 'BENCHMARKS.md'), os.stat(path('docs', 'BENCHMARKS.md')).st_mtime_ns


def words():
    g = Group('bench/run and bindings/check')
    before = state()
    status, page, error = run(('bench', 'run'), '--help')
    g.same('bench/run --help', (status, page.split('\n')[0], error), (0, 'usage: bench/run [--tests]', ''))
    for wrong in (['--test'], ['tests'], [''], ['--tests', '--tests'], ['--help', 'x']):
        g.same('bench/run %r' % wrong, run(('bench', 'run'), *wrong),
               (2, '', '%sbench/run: unknown arguments: %s\n' % (page, ' '.join(wrong))))
    for seed in ('x', '-1', ' 7'):
        g.same('RELAY_SEED %r' % seed, run(('bench', 'run'), '--tests', RELAY_SEED=seed), (2, '', SEED % seed))
    g.same('docs/BENCHMARKS.md is not written', state(), before)

    status, found, error = run(('bindings', 'check'))
    g.same('bindings/check', (status, found.startswith('declarations: '), found.count('\n'), error), (0, True, 1, ''))
    status, page, error = run(('bindings', 'check'), '--help')
    g.same('bindings/check --help', (status, 'usage: bindings/check' in page, error), (0, True, ''))
    g.same('bindings/check --selftest', run(('bindings', 'check'), '--selftest'), (2, '', page))
    g.end()
