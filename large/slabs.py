"""Slabs of a volume: how many points a surface has at each plane, which memory a slab takes, and
where the volume is cut so that each slab fits."""
import numpy

# What vizrun takes for a slab, measured: at all, for each byte of its file, and for each point.
MEMORY_AT_ALL = 8_000_000
MEMORY_A_BYTE = 2.0
MEMORY_A_POINT = 160
# What a file may have that vizrun reads, less the header.
MOST_BYTES = 1_073_741_824 - 4096
# What an image may have, and a section of a written mesh.
MOST_POINTS = 2 ** 31 - 1
# The edges of Kuhn's tetrahedra, from the lesser corner, by the greater corner's steps x, y and z,
# as names ascend: first those in the plane, then those to the next one.
IN_PLANE = [(1, 0), (0, 1), (1, 1)]
UPWARD = [(0, 0), (1, 0), (0, 1), (1, 1)]


def inside(values, level):
    """Where the numbers are at least the level."""
    least, most = numpy.iinfo(values.dtype).min, numpy.iinfo(values.dtype).max
    if level <= least or level > most:
        return numpy.full(values.shape, level <= least)
    return values >= numpy.array(level, values.dtype)


def cuts(low, high, steps):
    """At each point of a plane how many of these edges, into the plane `high`, are cut."""
    ny, nx = low.shape
    count = numpy.zeros((ny, nx), numpy.uint8)
    for x, y in steps:
        count[:ny - y, :nx - x] += low[:ny - y, :nx - x] != high[y:, x:]
    return count


def survey(volume, levels, first, end):
    """For each level the cut edges of the planes from `first` on, below `end`: a row for each
    plane, of those within it, and of those from it to the next one."""
    found = {level: numpy.zeros((end - first, 2), numpy.int64) for level in levels}
    high = volume.planes(first, first)[0]
    for plane in range(first, end):
        low, high = high, None
        if plane + 1 < volume.size[2]:
            high = volume.planes(plane + 1, plane + 1)[0]
        for level in levels:
            ours = inside(low, level)
            found[level][plane - first, 0] = cuts(ours, ours, IN_PLANE).sum()
            if high is not None:
                found[level][plane - first, 1] = cuts(ours, inside(high, level), UPWARD).sum()
    return found


def points_between(rows, first, last):
    """The points of a slab from plane `first` to plane `last`, by the rows of all planes."""
    return int(rows[first:last].sum() + rows[last, 0])


def memory_of(file_bytes, points):
    """The bytes of memory that vizrun takes for a slab of so many bytes, of whose surfaces the
    greatest has so many points."""
    return int(MEMORY_AT_ALL + MEMORY_A_BYTE * file_bytes + MEMORY_A_POINT * points)


def cut_volume(volume, rows, memory, most_planes):
    """The first and the last plane of each slab, the last one of each being the first one of the
    next, by the rows of all planes for each level. A slab takes as many layers as fit."""
    plane, layers, slabs, first = volume.plane_bytes, volume.size[2] - 1, [], 0
    points_of_plane = plane // volume.numbers.itemsize
    layer = sum(numpy.maximum.reduce([rows[level] for level in rows]).T)
    while first < layers:
        last, held = first, 0
        while last < layers and last - first + 2 <= most_planes:
            count, more = last - first + 2, held + int(layer[last])
            if (count * plane > MOST_BYTES or count * points_of_plane > MOST_POINTS
                    or memory_of(count * plane, more) > memory):
                break
            held, last = more, last + 1
        if last == first:
            raise ValueError("%s: the layer behind plane %d takes %d MB, and a worker has %d" % (
                volume.path, first, memory_of(2 * plane, int(layer[first])) // 10 ** 6 + 1,
                memory // 10 ** 6))
        slabs.append((first, last))
        first = last
    return slabs
