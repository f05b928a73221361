"""A receiver of packet mode, written from docs/FORMATS.md (sections 1 to 6 and 9) alone: packets, data groups, MOT
segments, the directory with its headers, and what a carousel of them has. Nothing here is the product's, and the
product has nothing of it. Where bytes break the form, `Wrong` says how.
"""
import binascii
import typing

LENGTHS = (24, 48, 72, 96)
BODY, DIRECTORY = 4, 6
CHARACTER_SET = 0xF0  # (15, UTF-8, in the upper half)
CONTENT_NAME, MIME_TYPE, VERSION = 0x0C, 0x10, 0x06


class Wrong(Exception):
    """Bytes that are not of the form."""


def need(holds, what):
    if not holds:
        raise Wrong(what)


def number(bytes_):
    return int.from_bytes(bytes_, "big")


# --- The checksum word.


def checksum(message):
    """x^16 + x^12 + x^5 + 1, from ones, complemented, the high byte first."""
    return (binascii.crc_hqx(message, 0xFFFF) ^ 0xFFFF).to_bytes(2, "big")


def checked(bytes_, what):
    """The bytes before their checksum word, which has to be right."""
    held = bytes_[:-2]
    if len(bytes_) < 2 or checksum(held) != bytes_[-2:]:
        raise Wrong(f"{what}: a wrong checksum")
    return held


# --- Packets.


class Packet(typing.NamedTuple):
    length: int
    index: int
    is_first: bool
    is_last: bool
    address: int
    is_command: bool
    data: bytes
    padding: bytes


def packet_of(bytes_):
    """The fields of one packet; the data are the useful ones."""
    if len(bytes_) not in LENGTHS:
        raise Wrong(f"a packet of {len(bytes_)} bytes")
    held = checked(bytes_, "a packet")
    first, end = held[0], 3 + (held[2] & 0x7F)
    need(length_of(first) == len(bytes_), "a packet that says another length")
    need(end <= len(held), "a packet with more useful data than data")
    return Packet(len(bytes_), first >> 4 & 3, first & 8 != 0, first & 4 != 0, (first & 3) << 8 | held[1],
                  held[2] & 0x80 != 0, held[3:end], held[end:])


def length_of(byte):
    """How long a packet says to be by its first byte."""
    return LENGTHS[byte >> 6]


def packets_in(stream):
    """The packets that follow each other in a stream of bytes; of the last a part may be missing."""
    packets, at = [], 0
    while at < len(stream):
        packets.append(stream[at:at + length_of(stream[at])])
        at += len(packets[-1])
    return packets


def packets_told(printed):
    """The packets that replies tell, a line each."""
    return [bytes.fromhex(it.split()[1].decode()) for it in printed.splitlines() if it.startswith(b"packet ")]


def turns_told(printed):
    """The packets of each whole turn that replies tell."""
    turns, packets = [], []
    for line in printed.splitlines():
        if line.startswith(b"packet "):
            packets.append(bytes.fromhex(line.split()[1].decode()))
            if line.endswith(b" end"):
                turns, packets = [*turns, packets], []
    return turns


# --- Data groups, gathered from packets.


class Group(typing.NamedTuple):
    at: int        # the number of its first packet
    packets: int   # how many it has
    bytes: bytes   # with its checksum word
    is_whole: bool


def groups_of(packets):
    """The data groups that packets of one address carry; the last may be under way."""
    groups, parts, begin, address = [], [], 0, None
    for at, packet in enumerate(map(packet_of, packets)):
        address = packet.address if address is None else address
        need(packet.address == address and not packet.is_command, "packets of two addresses, or of a command")
        need(packet.is_first is (not parts), "a group that begins within another, or goes on without one")
        begin = at if packet.is_first else begin
        parts.append(packet.data)
        if packet.is_last:
            groups.append(Group(begin, len(parts), b"".join(parts), True))
            checked(groups[-1].bytes, "a data group")
            parts = []
    return [*groups, Group(begin, len(parts), b"".join(parts), False)] if parts else groups


def cut_lengths(size, length):
    """The lengths of the packets of a group of this size; the last is the shortest that holds the rest."""
    lengths = []
    while size > length - 5:
        lengths.append(length)
        size -= length - 5
    return [*lengths, next(it for it in LENGTHS if size <= it - 5)]


# --- Segments.


class Segment(typing.NamedTuple):
    kind: int       # BODY or DIRECTORY
    index: int      # counts the groups of a kind
    repetition: int
    is_last: bool
    number: int
    tid: int
    data: bytes


def segment_of(group):
    """The segment in the bytes of a whole data group."""
    held = checked(group, "a data group")
    need(len(held) >= 10, "a data group without a segment")
    need(held[0] & 0xF0 == 0x70, "a data group without a checksum, segment or user access field, or with an extension")
    need(held[4] == 0x12, "a data group whose user access field is not a transport id alone")
    size = number(held[7:9]) & 0x1FFF
    need(len(held) == 9 + size, "a segment of another size than it says")
    need(held[7] & 0xE0 == 0, "a segment that is repeated")
    return Segment(kind=held[0] & 15, index=held[1] >> 4, repetition=held[1] & 15, is_last=bool(held[2] & 0x80),
                   number=number(held[2:4]) & 0x7FFF, tid=number(held[5:7]), data=held[9:])


def segments_of(packets):
    """The segments of the groups that came whole."""
    return [segment_of(it.bytes) for it in groups_of(packets) if it.is_whole]


class Entity(typing.NamedTuple):
    kind: int
    tid: int
    data: bytes


def entities_of(packets):
    """The entities of which all segments came, in order of their last; another one may come between two segments."""
    parts, whole = {}, []
    for it in segments_of(packets):
        came = parts.setdefault((it.kind, it.tid), [])
        if it.number == 0:
            came.clear()
        # (who begins to hear in the middle of an entity waits for its beginning)
        if it.number == len(came):
            came.append(it.data)
            if it.is_last:
                whole.append(Entity(it.kind, it.tid, b"".join(parts.pop((it.kind, it.tid)))))
    return whole


def bodies_of(packets):
    """The bodies that came whole, by transport id; of one that came twice the later."""
    return {it.tid: it.data for it in entities_of(packets) if it.kind == BODY}


def counts_on(packets):
    """Whether the indexes of packets count on, and those of the groups of each kind where their content changes."""
    last = {}
    for group in groups_of(packets):
        if group.is_whole:
            kind, index, content = group.bytes[0] & 15, group.bytes[1] >> 4, group.bytes[2:-2]
            before, old = last.get(kind, (index, content))
            if index != (before if old == content else (before + 1) % 16):
                return False
            last[kind] = index, content
    indexes = [it[0] >> 4 & 3 for it in packets]
    return all(later == (earlier + 1) % 4 for earlier, later in zip(indexes, indexes[1:]))


# --- The directory and its headers.


class Header(typing.NamedTuple):
    body: int
    type: int
    subtype: int
    name: bytes
    mime: bytes    # None where there is no MimeType
    version: int   # None where there is no VersionNumber


class Entry(typing.NamedTuple):
    tid: int
    header: Header


class Directory(typing.NamedTuple):
    period: int
    segment: int
    entries: list


def parameter_of(bytes_):
    """The id and the data of the parameter that these bytes begin with, and the bytes after it."""
    kind, begin, size = bytes_[0] >> 6, 1, 0
    if kind == 3:
        is_long = bool(bytes_[1] & 0x80)
        size = number(bytes_[1:3]) & 0x7FFF if is_long else bytes_[1]
        begin = 3 if is_long else 2
    else:
        size = (0, 1, 4)[kind]
    need(len(bytes_) >= begin + size, "a parameter that ends behind its header")
    return bytes_[0] & 0x3F, bytes_[begin:begin + size], bytes_[begin + size:]


def header_of(bytes_):
    """The header that these bytes begin with, and the bytes after it."""
    need(len(bytes_) >= 7, "a header without a core")
    core = number(bytes_[:7])
    size = core >> 15 & 0x1FFF
    need(7 <= size <= len(bytes_), "a header that ends behind its directory")
    rest, found = bytes_[7:size], {}
    while rest:
        kind, data, rest = parameter_of(rest)
        need(kind not in found, "a parameter that comes twice")
        found[kind] = data
    name = found.get(CONTENT_NAME, b"")
    need(name[:1] == bytes([CHARACTER_SET]), "a name that is not in UTF-8, or none")
    version = number(found[VERSION]) if VERSION in found else None
    header = Header(core >> 28, core >> 9 & 0x3F, core & 0x1FF, name[1:], found.get(MIME_TYPE), version)
    return header, bytes_[size:]


def directory_of(bytes_):
    """The directory that an entity of its kind has."""
    need(len(bytes_) >= 13, "a directory of less than 13 bytes")
    need(number(bytes_[:4]) == len(bytes_), "a directory of another size than it says, or a compressed one")
    extension = number(bytes_[11:13])
    rest, entries = bytes_[13 + extension:], []
    for _ in range(number(bytes_[4:6])):
        need(len(rest) >= 2, "a directory of fewer objects than it says")
        header, after = header_of(rest[2:])
        entries.append(Entry(number(rest[:2]), header))
        rest = after
    need(not rest, "a directory of more objects than it says")
    return Directory(number(bytes_[6:9]), number(bytes_[9:11]) & 0x1FFF, entries)


def carousel_of(packets):
    """The last directory that came whole, and the bodies of its objects by name; None for one that did not come."""
    directory = directory_of([it for it in entities_of(packets) if it.kind == DIRECTORY][-1].data)
    bodies = bodies_of(packets)
    return directory, {it.header.name: bodies.get(it.tid) for it in directory.entries}
