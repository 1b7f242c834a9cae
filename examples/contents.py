#!/usr/bin/env python3
"""Lists an archive through the shared library: contents.py LIBRARY ARCHIVE. Ends with status 1 if it is refused."""

import ctypes
import sys

CONTENTS_BYTES = 23066  # BOC_CONTENTS_BYTES: no listing is longer
NOWHERE = ctypes.c_size_t(-1).value  # BOC_NOWHERE


def contents(library, archive):
    """The listing as text, or the refusal as (number, entry, place), with None for what it does not bring."""
    text = ctypes.create_string_buffer(CONTENTS_BYTES)
    length, entry, place = ctypes.c_size_t(), ctypes.c_size_t(), ctypes.c_size_t()
    number = library.boc_contents(
        archive, ctypes.c_size_t(len(archive)), text, ctypes.c_size_t(CONTENTS_BYTES),
        ctypes.byref(length), ctypes.byref(entry), ctypes.byref(place),
    )
    if number == 0:
        return text.raw[: length.value].decode("ascii"), None
    return None, (number, *(None if at.value == NOWHERE else at.value for at in (entry, place)))


library = ctypes.CDLL(sys.argv[1])
library.boc_contents.restype = ctypes.c_uint32
with open(sys.argv[2], "rb") as file:
    listing, refusal = contents(library, file.read())
if refusal:
    sys.exit("refused %s, entry %s, place %s" % refusal)
print(listing, end="")
