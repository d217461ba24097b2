"""symbolize.py LIBRARY FILE ADDRESS ..: the place in the source of each address, as DIRECTORY/NAME:LINE.

LIBRARY is a shared object, which a compiler makes of the archive:

    cc -shared -o libdwtool.so -Wl,--whole-archive libdwtool.a -Wl,--no-whole-archive
"""

import ctypes
import sys
from ctypes import POINTER, Structure, byref, c_char, c_size_t, c_uint8, c_uint16, c_uint32, c_uint64


class Place(Structure):
    _fields_ = [("line", c_uint64), ("start", c_uint64), ("directory_size", c_uint64), ("name_size", c_uint64),
                ("unit", c_uint32), ("found", c_uint32)]


class Refusal(Structure):
    _fields_ = [("place", c_uint64), ("section", c_uint64), ("unit", c_uint32), ("number", c_uint16),
                ("what", c_uint16)]


def library(path):
    made = ctypes.CDLL(path)
    made.dwtool_places.restype = c_uint8
    made.dwtool_places.argtypes = [ctypes.c_char_p, c_size_t, POINTER(c_uint64), c_size_t, POINTER(Place), c_size_t,
                                   POINTER(c_size_t), POINTER(c_char), c_size_t, POINTER(c_size_t), POINTER(Refusal)]
    return made


def places(made, file, addresses):
    """The places of addresses, and the bytes of their names."""
    asked = (c_uint64 * len(addresses))(*addresses)
    rows = (Place * len(addresses))()
    room = 1 << 16
    while True:
        names, count, size, refusal = ctypes.create_string_buffer(room), c_size_t(), c_size_t(), Refusal()
        status = made.dwtool_places(file, len(file), asked, len(addresses), rows, len(addresses), byref(count), names,
                                    room, byref(size), byref(refusal))
        if status != 0:
            raise ValueError(f"status {status}: refusal {refusal.number} section {refusal.section}")
        if size.value <= room:
            return rows, names.raw
        room = size.value


def line_of(place, names):
    behind = place.start + place.directory_size
    directory, name = names[place.start:behind], names[behind:behind + place.name_size]
    if place.found != 2:
        return f"??:{place.line}"
    path = name if not directory or name.startswith(b"/") else directory + b"/" + name
    return f"{path.decode('utf-8', 'backslashreplace')}:{place.line}"


def main():
    if len(sys.argv) < 4:
        print("symbolize.py LIBRARY FILE ADDRESS ..", file=sys.stderr)
        sys.exit(2)
    made = library(sys.argv[1])
    with open(sys.argv[2], "rb") as opened:
        file = opened.read()
    rows, names = places(made, file, [int(word, 0) for word in sys.argv[3:]])
    for row in rows:
        print(line_of(row, names))


if __name__ == "__main__":
    main()
