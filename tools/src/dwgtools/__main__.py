"""The entry points, also as `python -m dwgtools check ..` and `python -m dwgtools recover ..`.
What takes its time to import is imported once an interrupt is quiet."""

from __future__ import annotations

import functools
import signal
import sys


def ran(tool: str) -> int:
    """Runs a tool."""
    if signal.getsignal(signal.SIGINT) != signal.SIG_IGN:
        signal.signal(signal.SIGINT, lambda *_: sys.exit(130))
    from . import cli

    return cli.ran(tool)


check = functools.partial(ran, "dwg-check")
recover = functools.partial(ran, "dwg-recover")

if __name__ == "__main__":
    if sys.argv[1:2] not in (["check"], ["recover"]):
        print("usage: python -m dwgtools check|recover ..", file=sys.stderr)
        sys.exit(2)
    sys.exit(ran(f"dwg-{sys.argv.pop(1)}"))
