"""Runs the tools in a temporary folder and counts what holds of them."""

import io
import os
import runpy
import subprocess
import sys
import tempfile
from typing import NamedTuple

ROOT = os.path.dirname(os.path.dirname(os.path.dirname(os.path.abspath(__file__))))
TOOLS = os.path.join(ROOT, 'tools')
EXAMPLE = os.path.join(ROOT, 'examples', 'pumping-station.txt')
ARCHIVE = os.path.join(ROOT, 'target', 'staticlib', 'libnimovalsa.a')

sys.path.insert(0, TOOLS)  # for the checks of functions


class Failed(Exception):
    """A check that does not hold."""


class Run(NamedTuple):
    status: int
    out: bytes
    err: str


class Bench:
    """A temporary folder, in which everything runs, and the number of checks that held."""

    def __init__(self):
        self.passed = 0

    def __enter__(self):
        self.home = os.getcwd()
        self.holder = tempfile.TemporaryDirectory()
        os.chdir(self.holder.name)
        return self

    def __exit__(self, *_):
        os.chdir(self.home)
        self.holder.cleanup()

    def put(self, name, data):
        with open(name, 'wb') as file:
            file.write(data)

    def get(self, name):
        with open(name, 'rb') as file:
            return file.read()

    def holds(self, condition, what):
        if not condition:
            raise Failed(what)
        self.passed += 1

    def equal(self, got, wanted, what):
        self.holds(got == wanted, f'{what}: got {got!r}, not {wanted!r}')

    def tool(self, name, *arguments, data=b''):
        """A tool run on data as its standard input, in this process, which saves most of a run's time."""
        kept = sys.argv, sys.stdin, sys.stdout, sys.stderr
        with tempfile.TemporaryFile() as out, io.StringIO() as err:
            sys.argv, sys.stdin = [name, *arguments], io.TextIOWrapper(io.BytesIO(data))
            sys.stdout, sys.stderr = out, err
            try:
                runpy.run_path(os.path.join(TOOLS, name), run_name='__main__')
            except SystemExit as end:
                out.seek(0)
                return Run(end.code, out.read(), err.getvalue())
            finally:
                sys.argv, sys.stdin, sys.stdout, sys.stderr = kept

    def program(self, name, *arguments, data=b'', tools=TOOLS, **streams):
        """A tool run as a program of its own, in Python's usual way whatever the environment asks of it."""
        run = subprocess.run([sys.executable, '-E', os.path.join(tools, name), *arguments], input=data,
                             stderr=subprocess.PIPE, **{'stdout': subprocess.PIPE, **streams})
        return Run(run.returncode, run.stdout or b'', run.stderr.decode())

    def succeeds(self, name, *arguments, data=b''):
        """What a run that must succeed prints."""
        run = self.tool(name, *arguments, data=data)
        self.holds(run.status == 0 and run.err == '', f'{name} {arguments}: status {run.status}, {run.err!r}')
        return run.out

    def fails(self, says, name, *arguments, status=1, run=None, **streams):
        """Holds if a run has the status, prints one line that starts so, and leaves every file as it was."""
        before = self.files()
        got = (run or self.tool)(name, *arguments, **streams)
        what = f'{name} {arguments}'
        self.equal(got.status, status, f'{what}: status ({got.err.strip()})')
        self.holds(got.err.startswith(says) and got.err.endswith('\n') and got.err.count('\n') == 1,
                   f'{what}: says {got.err!r}, not one line {says!r}')
        self.equal(got.out, b'', f'{what}: prints')
        self.holds(self.files() == before, f'{what}: changes files')

    def files(self):
        return {name: self.get(name) for name in sorted(os.listdir()) if os.path.isfile(name)}
