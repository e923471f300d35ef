"""A small store of each profile, and for each check of opening a change of its bytes that breaks
it."""
from __future__ import annotations

import image
import machine
from program import AREAS, Areas, Failure, format_store, read_areas, run
from scripts import LARGE

# of the header; a store that grows has one piece more, in which its log ends
SLOTS = 16
# floors that refuse no question of what is archived: of relations that come later or have none, or
# lower than all commits
OWN_FLOORS = ((0, 105), (3, 111), (5, 100), (9, 111), (65535, 1))
LOW_FLOORS = tuple((0, time) for time in range(1, 6))
# two commits in a slot, a delta, a deletion, two extents of one chain, anchors, two runs, two
# floors of a relation, and two chains of the same bytes
SCRIPT = f"""begin a
put a 1 7 61 62
put a 1 8 -
submit a 1 100
flush
begin b
begin c
put b 1 7 61 63
put c 2 1 64 65 66
submit b 2 110
submit c 2 0
flush
GROWN
floor 105
finish
begin d
del d 1 7
put d 2 1 64 67 66
submit d 3 120
flush
archive 111
finish
reclaim
finish
begin e
put e 1 7 68
put e 2 1 64 67 69
submit e 4 130
flush
archive 125
finish
floor 107
finish
begin f
put f 3 1 {LARGE}
put f 3 2 {LARGE}
submit f 5 140
begin g
del g 1 8
submit g 6 0
flush
begin h
put h 5 1 -
submit h 7 150
flush
begin i
put i 5 1 -
submit i 8 160
flush
""".splitlines()


def script(profile: int) -> list[str]:
    """The lines for a profile: one that grows does so first, and has some more floors."""
    floors = OWN_FLOORS if machine.has_own_floors(profile) else LOW_FLOORS
    grown = ["grow", "finish"]
    for relation, time in floors:
        grown += [machine.floor_line(profile, relation, time), "finish"]
    lines = []
    for line in SCRIPT:
        if line == "GROWN":
            lines += grown if machine.can_grow(profile) else []
        elif line.startswith("floor "):
            lines.append(machine.floor_line(profile, 1, int(line.split(" ")[1])))
        else:
            lines.append(line)
    return lines


# the commits of the last slots: e, f with g, and h and i, which have the same records
SINGLE, LARGE_AND_GONE, TWIN, OTHER_TWIN = -4, -3, -2, -1

# an area, a place in it, and what is written there; None: the area is cut off there
Change = tuple[str, int, "bytes | None"]
# a name, the change that breaks the check, the answer (None: as the plain reader says)
Check = tuple[str, Change, "str | None"]
# of the first record of the first run
TO_OF_RECORD = 18


def word(number: int, size: int) -> bytes:
    return number.to_bytes(size, "little")


def slot(number: int, place: int) -> int:
    return 512 + 512 * number + place


def heap_at(number: int, place: int) -> int:
    return (number - 1) * image.EXTENT + place


class Small:
    """The store of the script in a profile, and where its parts lie."""

    def __init__(self, program: str, folder: str, profile: int) -> None:
        self.profile, lines = profile, script(profile)
        format_store(program, folder, SLOTS, profile)
        status, said = run(program, folder, lines)
        if status or any(it.startswith("refused") for it in said):
            raise Failure(f"the script answers {said}")
        self.areas = read_areas(folder)
        whole = machine.Machine(slots=SLOTS, profile=profile)
        for line in lines:
            whole.answer(line)
        read = image.read(self.areas)
        why = image.why_not(self.areas, read, whole.published)
        found, wanted = (read.slots, read.log.floors), (whole.slots, whole.floors)
        if why or found != wanted:
            raise Failure(f"the plain reader finds {why or found}, and not {wanted}")
        self.keys = sorted({key for it in whole.published for key in it.writes})
        self.found, self.live, self.slots = read.log.slots, read.live, read.slots
        self.kinds = [kind for kind, _ in self.found]

    def floors_of_first(self) -> list[tuple]:
        """The bodies of the two floors of the first relation."""
        own = (1,) if machine.has_own_floors(self.profile) else ()
        return [(105, *own), (107, *own)]

    def floor_end(self) -> int:
        """Where the body of a floor slot ends."""
        return 18 if machine.has_own_floors(self.profile) else 16

    def floor_at(self, number: int, time: int) -> bytes:
        """An open slot with a floor of the relation that has the first one, behind its gate."""
        relation = word(1, 2) if machine.has_own_floors(self.profile) else b""
        return b"\xc7\4\0\0" + word(number, 4) + word(time, 8) + relation

    def body(self, kind: str, which: int = -1) -> tuple[int, tuple]:
        number = [at for at, it in enumerate(self.kinds) if it == kind][which]
        return number, self.found[number][1]

    def changed(self, changes: list[Change]) -> Areas:
        areas = {area: bytearray(self.areas[area]) for area in AREAS}
        for area, place, data in changes:
            if data is None:
                del areas[area][place:]
            else:
                areas[area][place:place + len(data)] = data
        return {area: bytes(data) for area, data in areas.items()}


def header_checks(small: Small) -> list[Check]:
    rest = image.GATES.stop if machine.can_grow(small.profile) else image.GATES.start
    changes: list[tuple[str, int, bytes | None]] = [
        ("an empty file", 0, None), ("a file of 511 bytes", 511, None),
        ("the first word", 0, b"n"), ("the first word's last byte", 7, b"2"),
        ("profile 0", 8, b"\0"), ("profile 4", 8, b"\4"), ("the profile's last byte", 11, b"\1"),
        ("15 slots", 12, word(15, 4)), ("65,537 slots", 12, word(65537, 4)),
        ("more slots than the file has", 12, word(SLOTS + 1, 4)),
        ("a byte of the header's rest", rest, b"\1"),
        ("an open gate in the header's rest", rest, b"\xc7"),
        ("the header's last byte", 511, b"\1"), ("a slot cut off", slot(small.slots, -1), None),
    ]
    others = [it for it in machine.PROFILES if it != small.profile]
    return [
        (f"header: {name}", ("status", place, data), "not a store")
        for name, place, data in changes
    ] + [(f"header: profile {it}", ("status", 8, bytes([it])), None) for it in others]


def piece_checks(small: Small) -> list[Check]:
    """The gates of pieces: those behind a closed one are ignored; where the first one is closed,
    the log ends with the header's slots."""
    gate, last = image.GATES.start, image.GATES.stop - 1
    refused: list[tuple[str, int, bytes | None]] = [
        ("a piece that the file has no room for", gate + 1, b"\xc7"),
        ("all pieces", gate, b"\xc7" * 255), ("a piece cut off", slot(SLOTS, 0), None),
        ("a slot more than the file has, beside a piece", 12, word(SLOTS + 1, 4) + b"\xc7"),
    ]
    opens: list[tuple[str, int, bytes | None]] = [
        ("the gate closed", gate, b"\0"), ("the gate of another value", gate, b"\xc6"),
        ("a gate behind a gap", gate + 2, b"\xc7"), ("the last gate behind a gap", last, b"\xc7"),
        ("the gate closed and the next one open", gate, b"\x37\xc7"),
        ("closed gates of any value", gate + 1, bytes(range(254)).replace(b"\xc7", b"\xc6")),
        ("as many slots of the header and no piece", 12, word(small.slots, 4) + b"\0"),
        ("fewer slots than the file has, and no piece", 12, word(SLOTS + 255, 4) + b"\0"),
    ]
    return [
        (f"pieces: {name}", ("status", place, data), answer)
        for some, answer in ((refused, "not a store"), (opens, None)) for name, place, data in some
    ]


# a slot, a name, a place in the slot, and what is written there
SlotChange = tuple[int, str, int, bytes]


def commit_slots() -> list[SlotChange]:
    changes = [
        ("kind 0", 1, b"\0"), ("kind 5", 1, b"\5"), ("no members", 2, b"\0"),
        ("17 members", 2, b"\x11"), ("byte 3", 3, b"\1"), ("another number", 4, b"\1"),
        ("time 0", 16, word(0, 8)), ("time 2^63", 16, word(1 << 63, 8)),
        ("first extent 0", 24, word(0, 4)), ("first extent 65,537", 24, word(65537, 4)),
        ("no extents", 28, word(0, 4)), ("more extents than records", 28, word(3, 4)),
        ("no records", 32, word(0, 4)), ("1,025 records", 32, word(1025, 4)),
        ("a byte behind the members", 36, b"\1"), ("the last byte", 511, b"\1"),
    ]
    return [(0, *it) for it in changes] + [
        (1, "a commit's time not later", 16, word(100, 8)),
        (1, "a member's time not later", 44, word(110, 8)),
    ]


def archived_slot(small: Small) -> list[SlotChange]:
    number, (_, start, _, records) = small.body("archived")
    changes = [
        ("with a member", 2, b"\1"), ("up to 0", 8, word(0, 8)),
        ("up to 2^63", 8, word(1 << 63, 8)), ("not later", 8, word(111, 8)),
        ("past the last commit", 8, word(131, 8)),
        ("that starts elsewhere", 16, word(start + 1, 8)),
        ("too short for its records", 24, word(36 * records - 1, 8)),
        ("too long for its records", 24, word(4131 * records + 1, 8)),
        ("without records", 32, word(0, 8)),
        ("that ends past 2^63", 24, word(image.LATEST, 8) + word((1 << 63) // 4131 + 1, 8)),
        ("of more records than 2^64 has places for", 32, word((1 << 64) // 36 + 1, 8)),
        ("with byte 3", 3, b"\1"), ("of another number", 4, word(number + 1, 4)),
        ("with a byte behind it", 40, b"\1"), ("with a last byte", 511, b"\1"),
    ]
    return [(number, f"an archive {name}", place, data) for name, place, data in changes]


def reclaimed_slots(small: Small) -> list[SlotChange]:
    number, (mark, _, _, records) = small.body("reclaimed")
    changes = [
        ("with a member", 2, b"\1"), ("up to 0", 8, word(0, 8)),
        ("up to 2^63", 8, word(1 << 63, 8)), ("up to another time", 8, word(110, 8)),
        ("without a first extent", 16, word(0, 4)), ("without extents", 20, word(0, 4)),
        ("with first extent 65,537", 16, word(65537, 4)),
        ("with 65,537 extents", 20, word(65537, 4) + word(65537, 4)),
        ("with more extents than records", 20, word(records + 1, 4)),
        ("without records", 24, word(0, 4)), ("with byte 3", 3, b"\1"),
        ("of another number", 4, word(number + 1, 4)), ("with a byte behind it", 28, b"\1"),
        ("with a last byte", 511, b"\1"),
    ]
    again = b"\xc7\3\0\0" + word(number + 1, 4) + word(mark, 8) + bytes(image.SLOT - 16)
    return [(number, f"a reclaim {name}", place, data) for name, place, data in changes] + [
        (number + 1, "a reclaim again up to the same time", 0, again)
    ]


def floor_slot(small: Small) -> list[SlotChange]:
    number, _ = small.body("floor")
    changes = [
        ("with a member", 2, b"\1"), ("with byte 3", 3, b"\1"),
        ("of another number", 4, word(number + 1, 4)), ("at 0", 8, word(0, 8)),
        ("at 2^63", 8, word(1 << 63, 8)), ("not later", 8, word(105, 8)),
        ("past the last commit", 8, word(131, 8)),
        ("with a byte behind it", small.floor_end(), b"\1"), ("with a last byte", 511, b"\1"),
    ]
    return [(number, f"a floor {name}", place, data) for name, place, data in changes]


def slot_checks(small: Small) -> list[Check]:
    """The form of a slot, and the log's rules."""
    last = len(small.found) - 1
    changes = [
        *commit_slots(), *archived_slot(small), *reclaimed_slots(small), *floor_slot(small),
        (last + 1, "the gate behind the log opened", 0, b"\xc7"),
        (
            last + 1, "a floor of another slot behind the log", 0, small.floor_at(last, 120),
        ),
    ]
    rows: list[Check] = [
        (f"slot {number}: {name}", ("status", slot(number, at), data), f"damaged status {number}")
        for number, name, at, data in changes
    ]
    return rows + [
        ("slot 0: any label", ("status", slot(0, 8), word((1 << 64) - 1, 8)), None),
        (
            "a commit at the end of all time", ("status", slot(last, 16), word(image.LATEST, 8)),
            None,
        ),
        ("a gate two behind the log opened", ("status", slot(last + 2, 0), b"\xc7"), None),
        ("the last gate closed", ("status", slot(last, 0), b"\x37"), None),
    ]


def floor_changes(small: Small) -> list[Check]:
    """Floors that keep the log's rules: what is refused by them, and a run with what ended by a
    floor before it."""
    behind = len(small.found)
    first, second = (
        number for number, (kind, body) in enumerate(small.found)
        if kind == "floor" and body in small.floors_of_first()
    )
    between = small.areas["status"][slot(first, 16): slot(second, 8)]
    changes = [
        ("a floor behind the log", slot(behind, 0), small.floor_at(behind, 120)),
        (
            "a floor at the last commit behind the log", slot(behind, 0),
            small.floor_at(behind, 160),
        ),
        ("a later floor", slot(second, 8), word(130, 8)),
        (
            "a floor later than a run's versions", slot(first, 8),
            word(110, 8) + between + word(111, 8),
        ),
        *(own_floors(first, second) if machine.has_own_floors(small.profile) else []),
    ]
    rows: list[Check] = [
        (f"floors: {name}", ("status", place, data), None) for name, place, data in changes
    ]
    return rows + [
        (
            "floors: a version in a run that ended by the floor before it",
            ("archive", TO_OF_RECORD, word(105, 8)), None,
        )
    ]


def own_floors(first: int, second: int) -> list[tuple[str, int, bytes]]:
    """Floors that are those of other relations."""
    return [
        ("the first floor is another relation's", slot(first, 16), word(2, 2)),
        ("the second floor is another relation's", slot(second, 16), word(2, 2)),
        ("a floor of a relation without records", slot(second, 16), word(65534, 2)),
        ("a floor lower than another relation's", slot(second, 8), word(101, 8) + word(2, 2)),
        ("a floor as late as the relation's", slot(second, 8), word(111, 8) + word(3, 2)),
    ]


def extent_checks(small: Small, name: str, number: int) -> list[Check]:
    """The form of an extent of anchors or of a commit."""
    heap, at = small.areas["heap"], heap_at(number, 0)
    used, (other, fields) = image.u(heap, at + 8, 4), (1, 35) if name == "anchors" else (4, 27)
    changes = [
        ("own number", 0, word(number + 1, 4)), ("a next extent", 4, word(number, 4)),
        ("nothing used", 8, word(0, 4)), ("8,177 bytes used", 8, word(8177, 4)),
        ("one byte less used", 8, word(used - 1, 4)), ("one byte more used", 8, word(used + 1, 4)),
        ("byte 12", 12, b"\1"), ("a byte behind what is used", 16 + used, b"\1"),
        ("the last byte", 8191, b"\1"), ("a record of kind 0", 16, b"\0"),
        (f"a record of kind {other}", 16, bytes([other])), ("keys not rising", 17, word(65535, 2)),
        ("no fields", fields, b"\0"), ("17 fields", fields, b"\x11"),
        ("a field past what is used", fields + 1, b"\xff"),
    ]
    if name == "anchors":
        second = 16 + image.anchor(heap[at + 16: at + 16 + used], 0, image.LATEST)[2]
        changes += [
            ("from 0", 27, word(0, 8)), ("from behind the mark", 27, word(112, 8)),
            ("a key twice", second + 1, heap[at + 17: at + 27]),
        ]
    return [
        (f"{name}: {what}", ("heap", at + place, data), f"damaged heap {number}")
        for what, place, data in changes
    ]


def record_checks(small: Small, number: int) -> list[Check]:
    """The rules of deltas, anchors and packing: the second record of this extent is a delta of 15
    bytes, behind an anchor of 14."""
    heap, at = small.areas["heap"], heap_at(number, 0)
    used, delta = image.u(heap, at + 8, 4), 16 + 14
    anchor = b"\1" + heap[at + 31: at + 41] + bytes.fromhex("03016401670169")
    spelled = word(used + 3, 4) + heap[at + 12: at + delta] + anchor
    whole = word(7, 2) + bytes.fromhex("017101720173")
    longer = word(used + 4, 4) + heap[at + 12: at + delta + 11] + whole
    large = small.body("commit", LARGE_AND_GONE)[1][0][2]
    lone = word(14, 4) + bytes(4) + bytes.fromhex("0103000100000000000000" "010161")
    changes = [
        (number, "a delta's mask past its fields", delta + 11, word(12, 2)),
        (number, "a delta without a change", delta + 14, b"\x66"),
        (number, "a delta of another key", delta + 3, b"\2"),
        (number, "an anchor where a delta is shorter", 8, spelled),
        (number, "a delta where an anchor is shorter", 8, longer),
        (number, "a delta of what was deleted", 16, b"\2"),
        (large, "records not packed", 8, lone + bytes(image.EXTENT - 8 - len(lone))),
    ]
    return [
        (f"records: {name}", ("heap", heap_at(one, place), data), f"damaged heap {one}")
        for one, name, place, data in changes
    ]


def anchor_chain(small: Small) -> list[Check]:
    number, (_, anchor, extents, records) = small.body("reclaimed")
    changes = [
        ("one record more", 24, records + 1), ("one record less", 24, records - 1),
        ("one extent more", 20, extents + 1),
    ]
    return [
        (
            f"{name} of anchors in the slot", ("status", slot(number, place), word(value, 4)),
            f"damaged heap {anchor}",
        )
        for name, place, value in changes
    ]


def commit_chain(small: Small) -> list[Check]:
    """A commit of one extent, by what its slot says."""
    anchor = small.body("reclaimed")[1][1]
    number, ((_, _, first, _, records),) = small.body("commit", SINGLE)
    changes = [
        ("one record more in the slot", 32, records + 1, first),
        ("one record less in the slot", 32, records - 1, first),
        ("a chain of one extent more", 28, 2, first),
        ("a chain in an extent of another", 24, anchor, anchor),
        ("a chain past the file", 24, 65536, 65536),
    ]
    (_, (twin,)), (other, _) = small.body("commit", TWIN), small.body("commit", OTHER_TWIN)
    rows: list[Check] = [
        (name, ("status", slot(number, place), word(value, 4)), f"damaged heap {extent}")
        for name, place, value, extent in changes
    ]
    return rows + [
        (
            "a chain in an extent of another commit, whose records fit",
            ("status", slot(other, 24), word(twin[2], 4)), f"damaged heap {twin[2]}",
        )
    ]


def long_chain(small: Small) -> list[Check]:
    """A commit of two extents, and one that deletes."""
    number, (large, gone) = small.body("commit", LARGE_AND_GONE)
    first, alone = large[2], small.body("commit", SINGLE)[1][0][2]
    second = image.u(small.areas["heap"], heap_at(first, 4), 4)
    changes = [
        ("an extent that follows itself", heap_at(first, 4), word(first, 4)),
        ("a last extent that names a next one", heap_at(second, 4), word(alone, 4)),
        ("a next extent that is another's", heap_at(first, 4), word(alone, 4)),
        ("the second extent's own number", heap_at(second, 0), word(0, 4)),
    ]
    rows: list[Check] = [
        (name, ("heap", place, data), f"damaged heap {first}") for name, place, data in changes
    ]
    return rows + [
        (
            "a chain of one extent less", ("status", slot(number, 28), word(1, 4)),
            f"damaged heap {first}",
        ),
        (
            "a deletion of what is not there", ("heap", heap_at(gone[2], 19), word(9, 8)),
            f"damaged heap {gone[2]}",
        ),
    ]


def chain_checks(small: Small) -> list[Check]:
    """The chains: anchors first, then the commits behind the mark in their order."""
    anchor, alone = small.body("reclaimed")[1][1], small.body("commit", SINGLE)[1][0][2]
    return [
        *extent_checks(small, "anchors", anchor), *extent_checks(small, "a commit", alone),
        *record_checks(small, alone), *anchor_chain(small), *commit_chain(small),
        *long_chain(small),
        ("the heap cut in its last extent", ("heap", len(small.areas["heap"]) - 1, None), None),
        ("the heap cut to nothing", ("heap", 0, None), f"damaged heap {anchor}"),
    ]


def table(small: Small) -> list[Check]:
    """Each check of opening in its order."""
    _, run = small.body("archived")
    cuts: list[Check] = [
        (
            "the archive cut in its last run", ("archive", run[1] + run[2] - 1, None),
            f"damaged archive {run[1]}",
        ),
        ("the archive cut to nothing", ("archive", 0, None), "damaged archive 0"),
    ]
    pieces = piece_checks(small) if machine.can_grow(small.profile) else []
    return [
        *header_checks(small), *pieces, *slot_checks(small), *floor_changes(small),
        *chain_checks(small), *cuts,
    ]


def overlap(a: Change, b: Change) -> bool:
    """Whether two changes have a byte in common, or one cuts off the other's."""
    if a[0] != b[0]:
        return False
    ends = [it[1] + (1 << 40 if it[2] is None else len(it[2])) for it in (a, b)]
    return a[1] < ends[1] and b[1] < ends[0]
