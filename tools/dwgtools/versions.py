"""Which versions of drawings there are, and how long a file and its header are at the most."""

from __future__ import annotations


# How many bytes an input and a canonical file have at the most (docs/FORMAT.md, Limits).
LIMIT = 33_554_432

# The versions that the program reads, and how the others are called, by the first six bytes. What begins as none of these is read as the last.
OURS = (b"AC1014", b"AC1015")
VERSIONS = {
    b"AC1009": "R12",
    b"AC1012": "R13",
    b"AC1018": "2004",
    b"AC1021": "2007",
    b"AC1024": "2010",
    b"AC1027": "2013",
    b"AC1032": "2018",
}

# How many bytes a file header has at the most.
MOST_HEADER = 97
