"""Images of disks, written from section 7 of docs/FORMATS.md: slots, halves and heads of both layouts.

(`tools/images.py` has a writer of its own, which stays independent of this one: what it writes, the prover computes.)
"""
OPEN = 0xA5
SLOT = {1: 256, 2: 512}
NOTHING, SET, REMOVE = 1, 2, 3  # kinds in layout 1; those of layout 2 are 16 more
HEAD = 64


def number(value, width):
    return value.to_bytes(width, "big")


def kind_of(kind, layout):
    return kind + 16 * (layout - 1)


def slot(kind=SET, *, layout=1, gate=OPEN, period=0, directory=9, last=9, tid=2, version=0, type=2, subtype=0, start=0,
         size=2, name=b"a", mime=b""):
    """A slot of a layout with the fields of one that sets an object; the kind is written as it is given."""
    numbers = [(gate, 1), (kind, 1), (period, 3), (directory, 2), (last, 2), (tid, 2), (version, 1), (type, 1),
               (subtype, 2), (start, 4), (size, 4)]
    texts = [number(len(name), 1), name, number(len(mime), 1), mime]
    return b"".join([*(number(*it) for it in numbers), *texts]).ljust(SLOT[layout], b"\0")


def half_size(objects):
    return 512 * objects + 1_024


def data_begin(objects):
    """Where the data area begins."""
    return HEAD + 2 * half_size(objects)


def head(objects=1, segment=1_024, address=1, packet=96, area=5, selector=0):
    sizes = b"".join(number(it, 2) for it in (objects, segment, address, packet))
    return (b"MOTCAR01" + number(selector, 1) + bytes(7) + sizes + number(area, 4)).ljust(HEAD, b"\0")


def disk_of(*slots, half=0, other=b"", objects=1, area=5, body=b"", **sizes):
    """A disk whose selected half has these slots; the other half and the data area begin with those bytes."""
    halves = [b"".join(slots), other]
    if half == 1:
        halves.reverse()
    halves = b"".join(it.ljust(half_size(objects), b"\0") for it in halves)
    return head(objects=objects, area=area, selector=half, **sizes) + halves + body.ljust(area, b"\0")
