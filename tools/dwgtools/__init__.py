"""What the tools over the program `dwg` stand on, each module called by what it holds. It is tested by tools/test, not proved."""

from __future__ import annotations

import os

# The folder in which `tools` stands, of a checkout or as it is installed.
TOP = os.path.dirname(os.path.dirname(os.path.dirname(os.path.realpath(__file__))))
