#!/usr/bin/env python3
"""The text that a picture (PNG) says of the program that made it.

    picture_text.py PICTURE         prints it
    picture_text.py PICTURE TEXT    puts it into the picture
"""

import struct
import sys
import zlib

HEAD = 8 + 25   # the signature and the first chunk, before which nothing may come
KEY = b"Software\0"


def chunks(data):
    """The chunks after the signature: their places, kinds and contents."""
    place = 8
    while place < len(data):
        length, kind = struct.unpack_from(">I4s", data, place)
        yield place, kind, data[place + 8:place + 8 + length]
        place += length + 12


def text_of(data):
    """The text, or an empty one."""
    return next((part[len(KEY):].decode() for _, kind, part in chunks(data) if kind == b"tEXt" and part.startswith(KEY)), "")


def with_text(data, text):
    part = b"tEXt" + KEY + text.encode()
    return data[:HEAD] + struct.pack(">I", len(part) - 4) + part + struct.pack(">I", zlib.crc32(part)) + data[HEAD:]


def main(name, text=None):
    with open(name, "rb") as file:
        data = file.read()
    if text is None:
        print(text_of(data))
        return
    with open(name, "wb") as file:
        file.write(with_text(data, text))


if __name__ == "__main__":
    main(*sys.argv[1:])
