"""Volumes on disk, of any size: raw numbers or one BINARY legacy file, read plane by plane."""
import os
from dataclasses import dataclass
from decimal import ROUND_DOWN, Decimal

import numpy

# The types of whole numbers, as the legacy format names them.
TYPES = {"char": "i1", "unsigned_char": "u1", "short": "i2", "unsigned_short": "u2", "int": "i4",
         "unsigned_int": "u4", "long": "i8", "unsigned_long": "u8", "vtktypeint64": "i8",
         "vtktypeuint64": "u8"}
# How much of a legacy file's front is looked at.
FRONT = 65536
UNIT = 10 ** 9


@dataclass
class Volume:
    """A volume on disk. Origin and spacing are whole numbers of billionths, as vizrun has them."""
    path: str
    size: tuple
    type: str
    order: str
    start: int
    origin: tuple
    spacing: tuple

    @property
    def numbers(self):
        """How the numbers lie on disk."""
        return numpy.dtype(self.order + TYPES[self.type])

    @property
    def plane_bytes(self):
        """The bytes of a plane along z."""
        return self.size[0] * self.size[1] * self.numbers.itemsize

    @property
    def name(self):
        """The file's name without its folder and its end."""
        return os.path.splitext(os.path.basename(self.path))[0]

    def planes(self, first, last):
        """The numbers of the planes from `first` to `last`, both included."""
        nx, ny, _ = self.size
        count = last - first + 1
        with open(self.path, "rb") as file:
            file.seek(self.start + first * self.plane_bytes)
            values = numpy.fromfile(file, self.numbers, count * ny * nx)
        if len(values) != count * ny * nx:
            raise EOFError("%s ends in front of plane %d" % (self.path, last + 1))
        return values.reshape(count, ny, nx)


def billionths(word):
    """A decimal in billionths, without what lies below them."""
    return int((Decimal(word) * UNIT).to_integral_value(rounding=ROUND_DOWN))


def decimal_of(number):
    """A number of billionths as the word that a file has."""
    whole, rest = divmod(abs(number), UNIT)
    digits = (".%09d" % rest).rstrip("0") if rest else ""
    return "%s%d%s" % ("-" if number < 0 else "", whole, digits)


def raw_volume(path, shape, origin, spacing):
    """Raw numbers: the shape is NXxNYxNZ:TYPE:ORDER, with the order `little` or `big`."""
    size, kind, order = shape.split(":")
    volume = Volume(path, tuple(int(it) for it in size.split("x")), kind,
                    {"little": "<", "big": ">"}[order], 0,
                    tuple(billionths(it) for it in origin), tuple(billionths(it) for it in spacing))
    return checked(volume)


def legacy_volume(path):
    """One BINARY legacy file of STRUCTURED_POINTS whose first array is its SCALARS."""
    with open(path, "rb") as file:
        front = file.read(FRONT)
    lines, at, found = [], 0, {}
    while not (lines and lines[-1].upper().startswith("LOOKUP_TABLE")):
        end = front.find(b"\n", at)
        if end < 0 or len(lines) > 40:
            raise ValueError("%s has no SCALARS with a LOOKUP_TABLE in front" % path)
        lines.append(front[at:end].decode("ascii", "replace").strip())
        at = end + 1
    for line in lines[2:]:
        words = line.split() or [""]
        found[words[0].upper()] = words[1:]
    strange = set(found) - {"", "BINARY", "DATASET", "DIMENSIONS", "ORIGIN", "SPACING",
                            "ASPECT_RATIO", "POINT_DATA", "SCALARS", "LOOKUP_TABLE"}
    if strange or "BINARY" not in found or found["DATASET"] != ["STRUCTURED_POINTS"]:
        raise ValueError("%s is no BINARY file of STRUCTURED_POINTS with SCALARS first" % path)
    spacing = found.get("SPACING") or found["ASPECT_RATIO"]
    volume = Volume(path, tuple(int(it) for it in found["DIMENSIONS"]), found["SCALARS"][1].lower(),
                    ">", at, tuple(billionths(it) for it in found["ORIGIN"]),
                    tuple(billionths(it) for it in spacing))
    if found["SCALARS"][2:] not in ([], ["1"]):
        raise ValueError("%s has more than one number a point" % path)
    return checked(volume)


def checked(volume):
    """The volume, if its numbers are whole ones, it has a cube, and all its bytes are there."""
    if volume.type not in TYPES:
        raise ValueError("%s has numbers of %s, and not whole ones" % (volume.path, volume.type))
    if min(volume.size) < 2:
        raise ValueError("%s has no cube" % volume.path)
    wanted = volume.start + volume.size[2] * volume.plane_bytes
    if os.path.getsize(volume.path) < wanted:
        raise ValueError("%s has less than %d bytes" % (volume.path, wanted))
    return volume


def write_slab(volume, values, first, path):
    """Writes planes of a volume, from plane `first` on, as an image at the place where they lie."""
    nx, ny, _ = volume.size
    origin = list(volume.origin)
    origin[2] += first * volume.spacing[2]
    head = ("# vtk DataFile Version 3.0\nslab\nBINARY\nDATASET STRUCTURED_POINTS\n"
            "DIMENSIONS %d %d %d\nORIGIN %s\nSPACING %s\nPOINT_DATA %d\nSCALARS s %s 1\n"
            "LOOKUP_TABLE default\n")
    words = (nx, ny, len(values), " ".join(map(decimal_of, origin)),
             " ".join(map(decimal_of, volume.spacing)), values.size, volume.type)
    with open(path, "wb") as file:
        file.write((head % words).encode("ascii"))
        values.astype(values.dtype.newbyteorder(">"), copy=False).tofile(file)
        file.write(b"\n")
