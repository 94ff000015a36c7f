"""What the commands that import share: their arguments and their exit status."""
from __future__ import annotations

import argparse
import sys
from typing import Callable, Optional

from importing.told import Fault


def parser_of(documentation: Optional[str]) -> argparse.ArgumentParser:
    """A parser of arguments whose usage is the first paragraph of a script's documentation."""
    usage, _, description = (documentation or "").partition("\n\n")
    form = argparse.RawDescriptionHelpFormatter
    parser = argparse.ArgumentParser(usage=usage, description=description, formatter_class=form)
    parser.add_argument("--strict", action="store_true", help="every line is a failure")
    parser.add_argument("--force", action="store_true", help="replaces a file that exists")
    return parser


def status_of(import_file: Callable[[argparse.Namespace], bool], asked: argparse.Namespace) -> int:
    """The exit status of an import, whose fault is printed."""
    try:
        return 0 if import_file(asked) else 1
    except Fault as fault:
        print(fault, file=sys.stderr)
    except OSError as error:
        print(f"{error.filename}: {error.strerror}", file=sys.stderr)
    return 1
