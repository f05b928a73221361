"""What a receiver makes of a multiplexer's ETI file: packets, data groups, segments and objects. What each of them is
stands in tests/dab.py; but here some may be wrong or broken off, since programs are killed while they play.
"""
from tests import dab

FRAME = 0.024
LENGTH = 6144


def is_right(packet):
    """Whether this is a packet with a right checksum."""
    try:
        return bool(dab.packet_of(packet))
    except dab.Wrong:
        return False


def timed_packets(eti, address, stream=0):
    """The packets at the address, each with the number of its frame. Each stream's length stands in the head of a
    frame; 96 bytes of the fast information channel stand in front of the streams (ETS 300 799)."""
    for start in range(0, len(eti) - LENGTH + 1, LENGTH):
        frame = eti[start : start + LENGTH]
        streams = frame[5] & 0x7F
        lengths = [8 * (int.from_bytes(frame[10 + 4 * it : 12 + 4 * it], "big") & 0x3FF) for it in range(streams)]
        at = 8 + 4 * streams + 4 + 96 + sum(lengths[:stream])
        for packet in dab.packets_in(frame[at : at + lengths[stream]]):
            if (packet[0] & 3) << 8 | packet[1] == address:
                yield start // LENGTH, packet


def jumps_in(packets):
    """How many packets do not go on from the index of the one before."""
    return sum((a[0] >> 4 & 3) + 1 & 3 != b[0] >> 4 & 3 for a, b in zip(packets, packets[1:]))


def segment_in(group):
    """The segment of a data group, None if it is not whole."""
    try:
        return dab.segment_of(group)
    except dab.Wrong:
        return None


def groups_of(packets):
    """The data groups that packets carry: of each the numbers of its first and last packet, and its segment, None if
    it is not whole."""
    first, group = 0, b""
    for number, bytes_ in enumerate(packets):
        if not is_right(bytes_):
            continue
        packet = dab.packet_of(bytes_)
        if packet.is_first:
            first, group = number, b""
        group += packet.data
        if packet.is_last:
            yield first, number, segment_in(group)
            group = b""


def names_in(directory):
    """The objects of a directory by transport id: the name, and the length of the body."""
    return {it.tid: (it.header.name.decode(), it.header.body) for it in dab.directory_of(directory).entries}


def numbered_objects(packets):
    """Each object that came whole, in order: the number of its last packet, its name, and its body. A directory that
    is sent again forgets nothing; one with another id is taken over when it is whole."""
    names, parts, directory = {}, {}, {}
    for _, number, it in groups_of(packets):
        if it is None:
            continue
        if it.kind == dab.DIRECTORY:
            directory = directory if it.tid in directory else {it.tid: {}}
            come = directory[it.tid]
            come[it.number] = it.data
            if it.is_last and sorted(come) == list(range(it.number + 1)):
                names = names_in(b"".join(come[at] for at in sorted(come)))
        if it.kind == dab.BODY and it.tid in names:
            name, length = names[it.tid]
            parts.setdefault(it.tid, {})[it.number] = it.data
            body = b"".join(parts[it.tid][at] for at in sorted(parts[it.tid]))
            if len(body) == length:
                yield number, name, body
                del parts[it.tid]


def objects_of(packets):
    """The same without the numbers."""
    return [(name, body) for _, name, body in numbered_objects(packets)]


def segments_in(timed):
    """Each segment whose data group came whole, of packets with their frames, and the frames of its first and last
    packet."""
    for first, last, segment in groups_of([packet for _, packet in timed]):
        if segment:
            yield segment, timed[first][0], timed[last][0]


def sendings(segments, kind):
    """Each whole sending of an entity of this kind, of which other groups may come between: its transport id, and the
    frames of its first and last packet."""
    come = {}
    for it, begun, ended in segments:
        if it.kind != kind:
            continue
        if it.number == 0:
            come[it.tid] = (0, begun)
        if it.tid in come and come[it.tid][0] == it.number:
            come[it.tid] = (it.number + 1, come[it.tid][1])
            if it.is_last:
                yield it.tid, come.pop(it.tid)[1], ended
