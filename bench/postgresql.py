#!/usr/bin/env python3
"""Times key joins beside PostgreSQL, on the same rows, in one run. Prints a table of milliseconds.

usage: bench/postgresql.py [ROWS ..]    (rows a table; without any, 10000 100000 1000000)

It wants the engine that python/build makes, and PostgreSQL's initdb, pg_ctl and psql. A cluster is made in a scratch folder and reached over a Unix
socket, by a user postgres or nobody where this is run as root. Tables are unlogged and have their keys declared; rows come by COPY from a file, and
ANALYZE is part of the loading. PostgreSQL's query is timed by psql, its rows written to /dev/null; the engine's time is that of a whole call from the
words, with what Python adds to it. Best of 3. The script fails if the two have different numbers of answers.
"""
import contextlib
import os
import pwd
import random
import re
import shutil
import subprocess
import sys
import tempfile
import time
from array import array
from pathlib import Path

sys.path.insert(0, str(Path(__file__).resolve().parent.parent / 'python'))

from spernevan import Record, engine  # noqa: E402

TABLES = 'create unlogged table {0}(a integer primary key, b integer)'
# Name, tables, values of the second column of each (0: as many as rows), rule, and the query in SQL.
CASES = [
    ('key join, 10 answers by projection', 2, (0, 10), 'ans(z) :- R0(x, y), R1(x, z)',
     'select distinct R1.b from R0, R1 where R0.a = R1.a order by 1'),
    ('key join, all rows as answers', 2, (0, 0), 'ans(x, y, z) :- R0(x, y), R1(x, z)',
     'select distinct R0.a, R0.b, R1.b from R0, R1 where R0.a = R1.a order by 1, 2, 3'),
    ('join of three tables', 3, (0, 0, 0), 'ans(x, u) :- R0(x, y), R1(x, z), R2(z, u)',
     'select distinct R0.a, R2.b from R0, R1, R2 where R0.a = R1.a and R1.b = R2.a order by 1, 2'),
    ('star of three tables', 3, (0, 0, 0), 'ans(x, y, z, u) :- R0(x, y), R1(x, z), R2(x, u)',
     'select distinct R0.a, R0.b, R1.b, R2.b from R0, R1, R2 where R0.a = R1.a and R0.a = R2.a order by 1, 2, 3, 4'),
]


def program(name):
    """Where a program of PostgreSQL is."""
    found = sorted(Path('/usr/lib/postgresql').glob('*/bin/' + name))
    return str(found[-1]) if found else shutil.which(name) or sys.exit(f'bench/postgresql.py: {name} is not there')


class Server:
    """A cluster of its own in a scratch folder."""

    def __init__(self, folder):
        self.folder = folder
        users = {entry.pw_name for entry in pwd.getpwall()}
        self.user = None if os.getuid() else next(name for name in ('postgres', 'nobody') if name in users)
        if self.user:
            os.chmod(folder, 0o755)
            os.chown(folder, pwd.getpwnam(self.user).pw_uid, -1)
        data = f'{folder}/data'
        self.call(program('initdb'), '-D', data, '-U', 'bench', '-A', 'trust', '-N', '-E', 'UTF8', '--locale=C')
        settings = f"-k {folder} -c listen_addresses='' -c fsync=off -c jit=off -c shared_buffers=1GB -c work_mem=1GB -c maintenance_work_mem=1GB"
        self.control = [program('pg_ctl'), '-D', data, '-s', '-w', '-l', f'{folder}/log']
        self.call(*self.control, '-o', settings, 'start')

    def stop(self):
        self.call(*self.control, '-m', 'immediate', 'stop')

    def call(self, *command, text=None):
        options = {'user': self.user} if self.user else {}
        done = subprocess.run(command, input=text, stdout=subprocess.PIPE, stderr=subprocess.STDOUT, text=True, cwd=self.folder, **options)
        if done.returncode:
            sys.exit(f'bench/postgresql.py: {command[0]}: {done.stdout}')
        return done.stdout

    def timed(self, script):
        """The milliseconds of each statement of a script, and what else psql prints."""
        flags = ['-h', self.folder, '-U', 'bench', '-d', 'postgres', '-X', '-q', '-A', '-t', '-v', 'ON_ERROR_STOP=1', '-f', '-']
        out = self.call(program('psql'), *flags, text='\\timing on\n' + script)
        return [float(found) for found in re.findall(r'^Time: ([0-9.]+) ms', out, re.M)], re.sub(r'(?m)^Time: .*\n', '', out)


def rows_of(n, values, seed):
    """The rows of each table: the same keys in different orders."""
    rng = random.Random(seed)
    for most in values:
        keys = list(range(n))
        rng.shuffle(keys)
        yield [(key, key % (most or n)) for key in keys]


def engine_time(rule, tables):
    """The best milliseconds of a call, and how many answers there are."""
    record = Record.open([2] * len(tables)).put(0, rule)
    words = array('I')
    for relation, rows in enumerate(tables):
        for key, value in rows:
            words.extend((relation, key, value))
    query = record.query(0)
    best, number = None, 0
    for _ in range(3):
        start = time.perf_counter()
        number, _ = engine.evaluate(record.file, 0, words, engine.Size(len(query.rows), query.head_length))
        took = 1000 * (time.perf_counter() - start)
        best = took if best is None else min(best, took)
    return best, number


def main():
    sizes = [int(word) for word in sys.argv[1:]] or [10_000, 100_000, 1_000_000]
    with contextlib.ExitStack() as stack:
        folder = stack.enter_context(tempfile.TemporaryDirectory(prefix='pg', dir='/tmp'))
        server = Server(folder)
        stack.callback(server.stop)
        print('| Case | rows a table | answers | engine | PostgreSQL, loading | PostgreSQL, query | loading and query, times the engine | query, times the engine |')
        print('|---|---|---|---|---|---|---|---|')
        for n in sizes:
            for name, relations, values, rule, query in CASES:
                tables = list(rows_of(n, values, n))
                ours, number = engine_time(rule, tables)
                load = []
                for relation, rows in enumerate(tables):
                    path = Path(folder, f'R{relation}')
                    path.write_text(''.join(f'{key}\t{value}\n' for key, value in rows))
                    path.chmod(0o644)
                    load.append(f'drop table if exists R{relation};\n' + TABLES.format(f'R{relation}') + f';\ncopy R{relation} from \'{path}\';\nanalyze R{relation};\n')
                loading = sum(server.timed(''.join(load))[0])
                times, said = server.timed('\\o /dev/null\n' + f'{query};\n' * 3 + f'\\o\nselect count(*) from ({query}) as found;\n')
                if int(said) != number:
                    sys.exit(f'bench/postgresql.py: {name}: {said.strip()} answers, and the engine has {number}')
                asked = min(times[:3])
                print(f'| {name} | {n} | {number} | {ours:.1f} | {loading:.1f} | {asked:.1f} | {(loading + asked) / ours:.1f} | {asked / ours:.1f} |', flush=True)


if __name__ == '__main__':
    main()
