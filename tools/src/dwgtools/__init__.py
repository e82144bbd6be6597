"""The tools over the program `dwg`. They are tested (tools/test), not proved as the program is."""

__version__ = "1.0"
