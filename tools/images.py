#!/usr/bin/env python3
"""Writes crates/mot_tests/proofs/Images.antt: images of disks, and what they stand for by a model of section 7 of
docs/FORMATS.md, written from that page alone; the prover computes the same from the definitions.

    tools/images.py            writes the file
    tools/images.py --check    fails where the file is not what it would write
"""
import collections
import pathlib
import random
import sys
import textwrap

FILE = pathlib.Path(__file__).resolve().parent.parent / "crates/mot_tests/proofs/Images.antt"
MAGIC, OPEN, HEAD = b"MOTCAR01", 0xA5, 64
RANDOM_IMAGES, SEED = 24, 2026
KEPT = "\u00a0"  # a space at which no line ends: rt fmt lays out anew a pair that is cut
PREAMBLE = """\
-- Images of disks, and what a model in another language says that they stand for; tools/images.py
-- writes this file.
use Rattle.std.proofs.Common.{◌≡◌, ℕ, List, [], ◌∷◌, ◌++◌, Option, Some, None, Ok, Err, Bool}
use Rattle.std.proofs.Common.{true, false, replicate, refl}
use Rattle.std.specs.Str.{is_utf8, chars}
use lib.Utf8.{encode}
use Rattle.mot_journal.specs.Geometry.{geometry_of}
use Rattle.mot_journal.specs.Slot.{read_slot}
use Rattle.mot_journal.specs.Image.{fold_from}
use Rattle.mot_journal.specs.Image.{Standing, records_of, stands_for, has_clean_gates}
use Rattle.mot_numbers.specs.declared.refusal.Refusal.TheVariants.{NotFormatted, Damaged}
use Rattle.mot_objects.specs.Carousel.{Object}

abbrev object : List ℕ → ℕ → ℕ → Option (List ℕ) → ℕ → ℕ → List ℕ → Object
object name type subtype mime version tid body = record {
  name = name;
  content = record { content_type = type; subtype = subtype };
  mime = mime;
  version = version;
  tid = tid;
  body = body;
}

abbrev standing : ℕ → ℕ → ℕ → ℕ → ℕ → ℕ → ℕ → ℕ → List Object → List (ℕ × ℕ)
    → List ℕ → Standing
standing objects segment address packet area period directory cursor list extents rest = record {
  geometry = record {
    objects = objects;
    segment = segment;
    address = address;
    packet = packet;
    area = area;
  };
  carousel = record { period = period; directory = directory; cursor = cursor; objects = list };
  extents = extents;
  rest = rest;
}

abbrev gates_of : List ℕ → Bool
gates_of image = has_clean_gates (geometry_of image) image
"""


# --- The model: what an image stands for.

Geometry = collections.namedtuple("Geometry", "objects segment address packet area")
Record = collections.namedtuple(
    "Record", "kind period directory cursor tid version type subtype start length name mime")
Standing = collections.namedtuple("Standing", "geometry period directory cursor records")


class Refused(Exception):
    """NotFormatted, or Damaged with a slot's number."""


def number(bytes_, at, count):
    return int.from_bytes(bytes_[at : at + count], "big")


def geometry_of(image):
    found = Geometry(*(number(image, at, 2) for at in (16, 18, 20, 22)), number(image, 24, 4))
    is_valid = (1 <= found.objects <= 250 and 64 <= found.segment <= 8189 and 1 <= found.address <= 1023
                and found.packet in (24, 48, 72, 96) and 1 <= found.area <= 268_435_456)
    if image[:8] != MAGIC or not is_valid or len(image) < 2112 + 1024 * found.objects + found.area:
        raise Refused("NotFormatted")
    return found


def selected_slots(geometry, image):
    """The layout of the selected half, and its slots."""
    size = 512 * geometry.objects + 1024
    begin = HEAD + (size if image[8] == 1 else 0)
    half = image[begin : begin + size]
    layout = 2 if half[0] == OPEN and 17 <= half[1] <= 19 else 1
    length = 256 * layout
    return layout, [half[at : at + length] for at in range(0, size, length)]


def is_name(name, layout):
    try:
        name.decode()
    except UnicodeDecodeError:
        return False
    return 1 <= len(name) <= (100 if layout == 1 else 255) and all(byte > 0x20 and byte != 0x7F for byte in name)


def is_mime(mime):
    return len(mime) <= 64 and all(0x21 <= byte <= 0x7E for byte in mime) and mime != b"-"


def record_of(geometry, layout, slot):
    """The record, or none where it breaks a rule of its fields."""
    kind = slot[1] - (0 if layout == 1 else 16)
    numbers = number(slot, 2, 3), number(slot, 5, 2), number(slot, 7, 2)
    if kind not in (1, 2, 3) or 0 in numbers[1:]:
        return None
    if kind == 1:
        return Record(kind, *numbers, *[None] * 8)
    tid = number(slot, 9, 2)
    if kind == 3:
        return Record(kind, *numbers, tid, *[None] * 7) if tid else None
    version, type_, subtype = slot[11], slot[12], number(slot, 13, 2)
    start, length = number(slot, 15, 4), number(slot, 19, 4)
    name = slot[24 : 24 + slot[23]]
    mime_at = 25 + slot[23]
    if mime_at > len(slot):
        return None
    mime = slot[mime_at : mime_at + slot[mime_at - 1]]
    is_right = (tid and type_ <= 63 and subtype <= 511 and 1 <= length <= 262_144 and start + length <= geometry.area
                and len(name) == slot[23] and is_name(name, layout)
                and len(mime) == slot[mime_at - 1] and is_mime(mime))
    return Record(kind, *numbers, tid, version, type_, subtype, start, length, name, mime) if is_right else None


def meet(one, other):
    return one.start < other.start + other.length and other.start < one.start + one.length


def is_sound(limit, directory, records):
    ids = [directory, *(it.tid for it in records)]
    return len(records) <= limit and len(set(ids)) == len(ids) and not any(
        meet(it, other) for at, it in enumerate(records) for other in records[:at])


def stands_for(image):
    """Its standing."""
    geometry = geometry_of(image)
    layout, slots = selected_slots(geometry, image)
    count = next((at for at, slot in enumerate(slots) if slot[0] != OPEN), len(slots))
    taken = [record_of(geometry, layout, slot) for slot in slots[:count]]
    if None in taken:
        raise Refused(f"(Damaged {taken.index(None)})")
    period, directory, cursor, records = 0, 1, 1, []
    for at, record in enumerate(taken):
        period, directory, cursor = record.period, record.directory, record.cursor
        if record.kind == 3:
            left = [it for it in records if it.tid != record.tid]
            if len(left) == len(records):
                raise Refused(f"(Damaged {at})")
            records = left
        elif record.kind == 2:
            names = [it.name for it in records]
            place = names.index(record.name) if record.name in names else len(records)
            records[place : place + 1] = [record]
        if not is_sound(geometry.objects, directory, records):
            raise Refused(f"(Damaged {at})")
    return Standing(geometry, period, directory, cursor, records)


def is_clean(image):
    _, slots = selected_slots(geometry_of(image), image)
    gates = [slot[0] == OPEN for slot in slots]
    return True not in gates[gates.index(False) :] if False in gates else True


# --- Images, from the bytes of slots.

PNG = b"image/png"


def big(value, count):
    return value.to_bytes(count, "big")


def slot(kind, directory, cursor=None, period=0, rest=b"", gate=OPEN):
    cursor = directory if cursor is None else cursor
    return bytes([gate, kind]) + big(period, 3) + big(directory, 2) + big(cursor, 2) + rest


def nothing(directory, **others):
    return slot(1, directory, **others)


def removed(tid, directory, **others):
    return slot(3, directory, rest=big(tid, 2), **others)


def put(name, tid, start, length, mime=b"", version=0, content=(2, 3), directory=None, named=None, **others):
    """`named` is the byte that tells the name's length."""
    rest = big(tid, 2) + bytes([version, content[0]]) + big(content[1], 2) + big(start, 4) + big(length, 4)
    rest += bytes([len(name) if named is None else named]) + name + bytes([len(mime)]) + mime
    return slot(2, tid + 1 if directory is None else directory, rest=rest, **others)


def in_layout_two(slots):
    return [it[:1] + bytes([it[1] + 16]) + it[2:] for it in slots]


def disk(*halves, objects=2, segment=64, address=1, packet=24, area=16, size=256, selector=0, body=None):
    numbers = b"".join(big(it, 2) for it in (objects, segment, address, packet)) + big(area, 4)
    head = MAGIC + bytes([selector]) + bytes(7) + numbers
    head += bytes(HEAD - len(head))
    for half in (*halves, [], [])[:2]:
        head += b"".join(it + bytes(size - len(it)) for it in half).ljust(512 * objects + 1024, b"\0")
    return head + (bytes(range(1, area + 1)) if body is None else body)


def new_disk(**others):
    return disk(in_layout_two([nothing(1)]), **{"objects": 1, "area": 8, "size": 512, "body": bytes(8), **others})


A, B = put(b"a", 2, 0, 5, PNG), put(b"b", 4, 5, 3)
PERIODS = [put(b"a", 2, 0, 1), *(nothing(3 + at, period=at) for at in range(1, 6))]
REWRITTEN = [put(b"a", 2, 0, 1, directory=8, period=5), nothing(9, period=6)]
TWICE = [put(b"a", 2, 0, 1), put(b"b", 2, 1, 1, directory=5)]


def with_gate(record, gate):
    return bytes([gate]) + record[1:]


def in_two(*slots):
    return disk(in_layout_two([nothing(1), *slots]), size=512)


NAMED = {
    "no_magic": bytes(3144),
    "too_few_for_a_head": bytes(63),
    "new_disk": new_disk(),
    "new_disk_of_layout_one": disk(objects=1, area=8, body=bytes(8)),
    "one_byte_short": new_disk()[:-1],
    "a_longer_one": new_disk() + bytes([7, 7]),
    "one_object": disk([A]),
    "one_object_in_layout_two": in_two(A),
    **{f"second_gate_{it:02X}": disk([A, with_gate(B, it)]) for it in (0x5A, 0, OPEN)},
    **{f"third_gate_of_layout_two_{it:02X}": in_two(A, with_gate(B, it)) for it in (0x5A, 0, OPEN)},
    **{f"selector_{it:02X}": disk(PERIODS, REWRITTEN, objects=1, area=8, selector=it) for it in (0, 0x77, 0xFF, 1)},
    "replaced_in_place": disk([A, B, put(b"a", 6, 8, 8, version=1)]),
    "objects_without": disk([A, B, removed(2, 6)]),
    "removed_and_appended": disk([A, B, removed(2, 6), put(b"a", 7, 0, 4)]),
    "name_of_no_bytes": disk([put(b"a", 2, 0, 5, PNG, named=0)]),
    "one_id_twice": disk(TWICE),
    "a_field_first": disk([*TWICE, slot(4, 6)]),
    "removes_nothing": disk([removed(9, 3)]),
    "extents_meet": disk([put(b"a", 2, 0, 10), put(b"b", 4, 9, 1)]),
    "extents_touch": disk([put(b"a", 2, 0, 10), put(b"b", 4, 10, 1)]),
    "mime_dash": disk([put(b"a", 2, 0, 1, b"-")]),
    "gate_A4": disk([with_gate(A, 0xA4)]),
    "gate_behind_a_closed_one": disk([with_gate(A, 0), B]),
    "kind_of_the_other_layout": disk(in_layout_two([nothing(1)]) + [nothing(2)], size=512),
    "directory_has_an_objects_id": disk([put(b"a", 2, 0, 1, directory=2, cursor=3)]),
    "too_many": disk([put(b"a", 2, 0, 1), put(b"b", 4, 1, 1)], objects=1, area=8),
    "start_at_the_top": disk([put(b"a", 2, 0xFFFF_FFFF, 5, PNG)]),
    "behind_the_area": disk([put(b"a", 2, 15, 2)]),
    "long_name_in_layout_one": disk([put(b"n" * 101, 2, 0, 1)]),
    "long_name_in_layout_two": disk(in_layout_two([put(b"n" * 255, 2, 0, 1)]), size=512),
    "directory_zero": disk([put(b"a", 2, 0, 5, PNG, directory=0, cursor=3)]),
    "cursor_zero": disk([put(b"a", 2, 0, 5, PNG, cursor=0)]),
    "tid_zero": disk([put(b"a", 0, 0, 5, PNG, directory=3)]),
    "type_64": disk([put(b"a", 2, 0, 5, PNG, content=(64, 3))]),
    "subtype_512": disk([put(b"a", 2, 0, 5, PNG, content=(2, 512))]),
    "length_zero": disk([put(b"a", 2, 0, 0, PNG)]),
    "overlong_text": disk([put(b"\xC0", 2, 0, 5, PNG)]),
    "mime_65": disk([put(b"a", 2, 0, 5, b"m" * 65)]),
    "tid_zero_of_nothing": disk([nothing(2)]),
    "objects_0": new_disk(objects=0),
    "objects_251": new_disk(objects=251),
    "segment_63": new_disk(segment=63),
    "address_0": new_disk(address=0),
    "address_1024": new_disk(address=1024),
    "packet_25": new_disk(packet=25),
    "area_0": new_disk(area=0),
}


def random_image(dice):
    """Some records that mostly follow on each other, and in half of the images one byte of a slot that was changed."""
    layout, taken, records, tids = dice.choice([1, 2]), 1, [], []
    for _ in range(dice.randint(1, 4 if layout == 2 else 6)):
        taken += 2
        what = dice.choice(["put"] * 4 + ["removed", "nothing"])
        if what == "removed" and tids:
            records.append(removed(tids.pop(), taken))
        elif what == "put":
            place = dice.randrange(3)
            start = 4 * place + dice.choice([0, 0, 0, 4])
            records.append(put("aéb"[place].encode(), taken - 1, start, dice.randint(1, 4)))
            tids.append(taken - 1)
        else:
            records.append(nothing(taken, period=dice.randrange(100)))
    if dice.random() < 0.5:
        at = dice.randrange(len(records))
        changed = bytearray(records[at])
        changed[dice.randrange(len(changed))] = dice.choice([0, 4, OPEN, 0xFF])
        records[at] = bytes(changed)
    half = dice.randrange(2)
    slots = in_layout_two(records) if layout == 2 and all(it[1] < 200 for it in records) else records
    return disk(*[[]] * half, slots, size=256 * layout, selector=half)


# --- The file.


def bytes_text(bytes_):
    """A list; where one byte stands seven times or more, counted."""
    parts, at, plain = [], 0, []

    def end_plain():
        if plain:
            parts.append("(" + " ∷ ".join([*plain, "[]"]) + ")")
            plain.clear()

    while at < len(bytes_):
        end = next((it for it in range(at, len(bytes_)) if bytes_[it] != bytes_[at]), len(bytes_))
        if end - at >= 7:
            end_plain()
            parts.append(f"replicate {end - at} {f'0x{bytes_[at]:02X}' if bytes_[at] else 0}")
        else:
            plain.extend(f"0x{it:02X}" for it in bytes_[at:end])
        at = end
    end_plain()
    return " ++ ".join(parts) if parts else "[]"


def list_text(items):
    return "(" + " ∷ ".join([*items, "[]"]) + ")"


def argument(bytes_):
    text = bytes_text(bytes_)
    return text if text.startswith("(") and "++" not in text else f"({text})"


def object_text(record, image, area_at):
    at = area_at + record.start
    mime = f"(Some {argument(record.mime)})" if record.mime else "None"
    return (f"object {argument(record.name)} {record.type} {record.subtype} {mime} {record.version} {record.tid} "
            f"{argument(image[at : at + record.length])}")


def outcome_text(image):
    try:
        found = stands_for(image)
    except Refused as refused:
        return f"Err {refused}"
    area_at = 2112 + 1024 * found.geometry.objects
    geometry = found.geometry
    numbers = (*geometry, found.period, found.directory, found.cursor)
    objects = list_text(object_text(it, image, area_at) for it in found.records)
    extents = list_text(f"({it.start},{KEPT}{it.length})" for it in found.records)
    rest = argument(image[area_at + geometry.area :])
    return f"Ok (standing {' '.join(map(str, numbers))} {objects} {extents} {rest})"


def filled(text):
    indents = {"initial_indent": "    ", "subsequent_indent": "    "}
    lines = textwrap.fill(text, 100, **indents, break_on_hyphens=False, break_long_words=False)
    return lines.replace(KEPT, " ")


def rows_of(name, image):
    outcome = outcome_text(image)
    text = f"""
abbrev {name} : List ℕ
{name} =
{filled(bytes_text(image))}

{name}-stands : stands_for {name} ≡
{filled(outcome)}
unfolding stands_for records_of geometry_of read_slot fold_from is_utf8 chars encode
{name}-stands = refl
"""
    if outcome.startswith("Ok"):
        text += f"""
{name}-gates : gates_of {name} ≡ {str(is_clean(image)).lower()}
unfolding geometry_of
{name}-gates = refl
"""
    return text


def main():
    dice = random.Random(SEED)
    images = {**NAMED, **{f"random_{at}": random_image(dice) for at in range(RANDOM_IMAGES)}}
    wanted = PREAMBLE + "".join(rows_of(name, image) for name, image in images.items())
    if sys.argv[1:] == ["--check"]:
        if FILE.read_text() != wanted:
            print("tools/images.py: crates/mot_tests/proofs/Images.antt is not what this tool writes")
            return 1
        print(f"tools/images.py: {len(images)} images, as they should be")
        return 0
    FILE.write_text(wanted)
    return 0


sys.exit(main())
