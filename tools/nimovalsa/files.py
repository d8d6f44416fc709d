"""Files of a command line, and errors that are one line.

A command raises Wrong with what it has to say; run prints it on standard error and gives the status:
1 for a fault in what was read or written, 2 for wrong use of the command line.
"""

import os
import stat
import sys
import tempfile

STANDARD = '-'  # the name for standard input and standard output


class Wrong(Exception):
    """What is wrong, with the file and line that it concerns."""

    status = 1

    def __init__(self, what, name=None, line=None):
        place = [] if name is None else [shown(name)]
        place += [] if line is None else [str(line)]
        super().__init__(': '.join([':'.join(place), what] if place else [what]))


class WrongUse(Wrong):
    """A command line that the tool does not take."""

    status = 2


def shown(name):
    """A file's name in a message, which stays one line."""
    if name == STANDARD:
        return 'standard input'
    return name if name.isprintable() else repr(name)


def run(command):
    """Runs a command on its arguments and ends with its status."""
    try:
        command(sys.argv[1:])
        status = 0
    except Wrong as wrong:
        say(str(wrong))
        status = wrong.status
    except KeyboardInterrupt:
        status = 130
    sys.exit(status)


def say(line):
    """One line on standard error, if there is one."""
    try:
        if sys.stderr is not None:
            print(line, file=sys.stderr, flush=True)
    except OSError:
        pass


def are_files(arguments):
    """Whether arguments can be file names: what else starts with - is an option that no tool has."""
    return all(name == STANDARD or name and not name.startswith('-') for name in arguments)


def read(name, most):
    """The bytes of a file of at most so many bytes."""
    data = read_start(name, most + 1)
    if len(data) > most:
        raise Wrong(f'is longer than {most:,} bytes', name)
    return data


def read_start(name, most):
    """The first bytes of a file, at most so many."""
    try:
        if name != STANDARD:
            with open(name, 'rb') as file:
                return file.read(most)
        if sys.stdin is None:
            raise Wrong('is closed', name)
        return sys.stdin.buffer.read(most)
    except (OSError, ValueError) as error:
        raise Wrong(f'cannot be read: {reason(error)}', name) from None


def write(name, data):
    """Writes a file whole or not at all: beside it first, then under its name."""
    try:
        if name == STANDARD:
            write_standard(data)
        elif is_special(name):
            with open(name, 'wb') as file:
                file.write(data)
        else:
            replace(os.path.realpath(name), data)
    except (OSError, ValueError) as error:
        shown_name = 'standard output' if name == STANDARD else name
        raise Wrong(f'cannot be written: {reason(error)}', shown_name) from None


def write_standard(data):
    if sys.stdout is None:
        raise OSError('it is closed')
    # A buffer of its own: what Python's keeps after a failure is tried again, with a traceback, at the end.
    with open(sys.stdout.fileno(), 'wb', closefd=False) as file:
        file.write(data)


def is_special(name):
    """A device, a pipe or a folder: it must not be replaced by a file."""
    return os.path.exists(name) and not os.path.isfile(name)


def replace(name, data):
    """Puts a file in place of what had the name, with the rights that the name had."""
    rights = rights_of(name)
    handle, beside = tempfile.mkstemp(prefix='.nimovalsa-', dir=os.path.dirname(name))
    try:
        with open(handle, 'wb') as file:
            file.write(data)
        os.chmod(beside, rights)
        os.replace(beside, name)
    except BaseException:
        os.unlink(beside)
        raise


def rights_of(name):
    if os.path.exists(name):
        if not os.access(name, os.W_OK):
            raise OSError('no right to write it')
        return stat.S_IMODE(os.stat(name).st_mode)
    mask = os.umask(0)
    os.umask(mask)
    return 0o666 & ~mask


def reason(error):
    """Why the system refused, without the file's name."""
    return getattr(error, 'strerror', None) or str(error)


def refuse_same(*names):
    """No file may be given twice: the output would take the place of an input."""
    for at, name in enumerate(names):
        for other in names[:at]:
            if name != STANDARD and other != STANDARD and is_same(name, other):
                raise WrongUse('is given twice', name)


def is_same(name, other):
    try:
        return os.path.isfile(name) and os.path.samefile(name, other)
    except (OSError, ValueError):
        return False
