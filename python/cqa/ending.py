"""How a command ends: its status, and a line for what it raises."""

from __future__ import annotations

import errno
import os
import sys
from typing import Callable

from .errors import CqaError, Ended, NotBuilt
from .files import said


def ended_with(name: str, command: Callable[[], int]) -> int:
    """Runs a command and gives its status; what it raises is told in a line behind its name."""
    try:
        status = command()
        sys.stdout.flush()
        return status
    except BrokenPipeError:
        return _no_output()
    except KeyboardInterrupt:
        return 130
    except Ended as fault:
        print("cqa %s: %s" % (name, fault), file=sys.stderr)
        return fault.status or 1 if fault.status >= 0 else 128 - fault.status
    except NotBuilt as fault:
        print("cqa %s: %s" % (name, fault), file=sys.stderr)
        return 127
    except (CqaError, OSError) as fault:
        print("cqa %s: %s" % (name, said(fault)), file=sys.stderr)
        return _no_output() if isinstance(fault, OSError) and fault.errno == errno.ENOSPC else 1


def _no_output() -> int:
    """The status where output can't be written; what is kept back is thrown away, so that the end of the process is silent."""
    os.dup2(os.open(os.devnull, os.O_WRONLY), 1)
    return 4
