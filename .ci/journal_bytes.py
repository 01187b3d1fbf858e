"""Journals byte by byte, as the page that describes them has it: a head, and behind it records, each with a checksum that goes on
from the one before; and the frames that a record may have.
"""
import hashlib
import struct

# the tags of events: those of an envelope that came, and of others how many bytes stand behind the tag
DELIVERIES = 1, 6, 10
LENGTHS = {2: 0, 3: 0, 4: 0, 5: 0, 7: 0, 8: 10, 9: 2, 11: 0}


def checksum(before, text):
    """The checksum of what stands behind this one."""
    return hashlib.sha256(before + text).digest()[:8]


def record(before, body):
    """A record that says this, behind this checksum; its own are its last eight bytes."""
    measured = struct.pack(">II", len(body), 0xFFFFFFFF - len(body)) + body
    return measured + checksum(before, measured)


def journal(head, bodies):
    """The journal of a head, and of what each of its records says."""
    text, before = [head], checksum(bytes(8), head)
    for body in bodies:
        text.append(record(before, body))
        before = text[-1][-8:]
    return b"".join(text)


def parts(text):
    """The head of a journal, and what each of its records says."""
    at = 44 if text[7] else 40
    head, bodies = text[:at], []
    while at < len(text):
        (length,) = struct.unpack_from(">I", text, at)
        bodies.append(text[at + 8 : at + 8 + length])
        at += 16 + length
    return head, bodies


def read(path):
    """The head of the journal in a file, and what each of its records says: a clock of eight bytes, the event and the outcome."""
    with open(path, "rb") as file:
        return parts(file.read())


def write(path, head, bodies):
    """Writes a journal with checksums that fit."""
    with open(path, "wb") as file:
        file.write(journal(head, bodies))


def frame(kind, actor, clock, to, body, place=0):
    """A frame of the envelope that an actor sent at a clock, of so many before it."""
    text = struct.pack(">BBHQIH", 2, kind, actor, clock, place, to) + body
    return struct.pack(">I", len(text)) + text


def outcome_in(body):
    """Where the outcome stands in a record; nothing where it has an event of which that is not told here."""
    if body[8] in DELIVERIES:
        return 13 + struct.unpack_from(">I", body, 9)[0]
    return 9 + LENGTHS[body[8]] if body[8] in LENGTHS else None
