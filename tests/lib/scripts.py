"""Runs of the scripts that are installed with fcanon."""

import subprocess
import time
from importlib.machinery import SourceFileLoader
from importlib.util import module_from_spec, spec_from_loader
from typing import NamedTuple


class Ended(NamedTuple):
    status: int
    printed: bytes
    said: str

    def is_refused(self):
        """Whether it gave up as it must: nothing printed, and one line."""
        return self.status == 3 and self.printed == b"" and self.said.count("\n") == 1


def ended(words, text=b"", **how):
    run = subprocess.run(words, input=text, stdout=subprocess.PIPE, stderr=subprocess.PIPE, **how)
    return Ended(run.returncode, run.stdout, run.stderr.decode())


def once_free(run):
    """What `run` gives once what is left of another run has ended, in five minutes at most: it is called until then."""
    for _ in range(1_500):
        found = run()
        if "another run works" not in found.said:
            break
        time.sleep(0.2)
    return found


def program_file(file, text):
    """The file, which is a program of this text."""
    file.write_text(text)
    file.chmod(0o755)
    return file


def module_of(file):
    """A script as a module, which has the script's functions and does not run it."""
    loader = SourceFileLoader(file.parent.name + "_" + file.name, str(file))
    module = module_from_spec(spec_from_loader(loader.name, loader))
    loader.exec_module(module)
    return module
