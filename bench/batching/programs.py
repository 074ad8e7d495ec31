"""Which program solves or judges: the one that is named, or the one that is built."""

from __future__ import annotations

import argparse
import os
import sys

from batching import ROOT
from batching.runs import Program, began_with

# What ./optplan and ./optplan-unproved build.
PROVED, UNPROVED = "crates/optplan/out/optplan", "out/optplan-unproved"
# Where an archive of `tools/dist` has the proved program.
PACKED = "bin/optplan"
# For the help of commands.
DEFAULT = f"{PROVED}, and where that is not built {UNPROVED}; in an archive {PACKED}"


def count(most: int):
    """A type of argparse: a number from 1 to this one."""
    def read(text: str) -> int:
        if not text.isdecimal() or not 1 <= int(text) <= most:
            raise argparse.ArgumentTypeError(f"{text} is no number from 1 to {most}")
        return int(text)
    return read


def program_at(path: str, command: str) -> Program:
    """The program of a file that can be run; leaves, in this command's name, where it is none."""
    if not os.path.isfile(path) or not os.access(path, os.X_OK):
        sys.exit(f"{command}: there is no program {path}. In the top folder ./optplan proves and builds {PROVED}, and "
                 f"./optplan-unproved builds {UNPROVED} without a proof, in some minutes")
    if os.path.isfile(f"{os.path.dirname(os.path.realpath(path))}/tools/building.sh"):
        sys.exit(f"{command}: {path} looks at its sources at each start, and builds what is not built. Start it once, and name the "
                 f"program that it has built then: {PROVED} or {UNPROVED}")
    return Program.at(path)


def default_program(run: str, command: str) -> str:
    """The proved program; or the unproved one, which is told in this command's name, where it alone is built or the run began with
    it."""
    if os.path.isfile(f"{ROOT}/{PACKED}"):
        return f"{ROOT}/{PACKED}"
    proved, unproved = f"{ROOT}/{PROVED}", f"{ROOT}/{UNPROVED}"
    began_so = began_with(run) == unproved
    if not os.path.isfile(unproved) or os.path.isfile(proved) and not began_so:
        return proved
    why = "the run began with it" if began_so else f"{PROVED} is not built"
    print(f"{command}: {UNPROVED} {'solves' if command == 'batch' else 'judges'}, for which no proof vouches ({why})", file=sys.stderr)
    return unproved
