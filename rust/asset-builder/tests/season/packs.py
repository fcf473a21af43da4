"""Writes a season of packs into the folder SEASON, of at least 2 GiB, the same ones every time.

    packs.py CORPUS SEASON

Prints what `report` must find of them, as JSON: packs that are counted, packs that are refused, and files.

A pack has up to a thousand files of CORPUS, accepted and refused ones, four pictures and one that is cut, texts, numbers, and a sound
and a note, which are no XNB files. Every fortieth pack has more numbers than a file may have rows. Every hundredth pack is cut itself and
so refused. The first is empty, and the second has as many files as a pack can have.
"""

import json
import random
import struct
import sys
from pathlib import Path

LEAST_BYTES = 2 * 1024**3
MOST_FILES = 4096
CONTENT = "Microsoft.Xna.Framework.Content."


def seven_bit(number):
    low = number & 0x7F
    return bytes([low]) if number < 0x80 else bytes([low | 0x80]) + seven_bit(number >> 7)


def text(value):
    value = value.encode()
    return seven_bit(len(value)) + value


def word(number):
    return struct.pack("<I", number)


def xnb(readers, primary):
    """A file without shared objects, whose primary object is of the first reader."""
    names = b"".join(text(CONTENT + name) + word(0) for name in readers)
    body = seven_bit(len(readers)) + names + seven_bit(0) + seven_bit(1) + primary
    return b"XNBw\x05\x00" + word(10 + len(body)) + body


def picture(chance):
    width, height = chance.randint(256, 640), chance.randint(256, 640)
    size = width * height * 4
    level = word(size) + chance.randbytes(size)
    return xnb(["Texture2DReader"], word(0) + word(width) + word(height) + word(1) + level)


def texts(chance):
    values = [text("größer " * chance.randint(0, 20)) for _ in range(chance.randint(0, 2000))]
    objects = b"".join(seven_bit(2) + value for value in values)
    return xnb(["ListReader`1[[System.String]]", "StringReader"], word(len(values)) + objects)


def numbers(chance, count):
    return xnb(["ArrayReader`1[[System.Int32]]", "Int32Reader"], word(count) + chance.randbytes(4 * count))


def pack(files):
    parts = [text(path) + word(len(data)) + data for path, data in files]
    return word(len(files)) + b"".join(parts)


def files_of_day(day, samples, chance):
    if day == 1:
        return []
    if day == 2:
        return [(f"samples/{place}.xnb", chance.choice(samples)[1]) for place in range(MOST_FILES)]
    files = chance.sample(samples, chance.randint(200, min(1000, len(samples))))
    files += [(f"pictures/{place}.xnb", picture(chance)) for place in range(4)]
    files += [
        ("pictures/cut.xnb", picture(chance)[:-1]),
        ("texts/lines.xnb", texts(chance)),
        ("numbers/stops.xnb", numbers(chance, 70000 if day % 40 == 0 else chance.randint(0, 60000))),
        ("sounds/bell.wav", b"RIFF" + chance.randbytes(chance.randint(0, 1000000))),
        ("notes.txt", b""),
    ]
    chance.shuffle(files)
    return files


def main(corpus, season):
    samples = [(f"samples/{path.name}", path.read_bytes()) for path in sorted(Path(corpus).glob("*.xnb"))]
    found = {"packs": 0, "packsRefused": 0, "files": 0}
    day = 0
    length = 0
    while length < LEAST_BYTES:
        day += 1
        files = files_of_day(day, samples, random.Random(day))
        data = pack(files)
        if day % 100 == 0:
            data = data[:-1]
            found["packsRefused"] += 1
        else:
            found["packs"] += 1
            found["files"] += len(files)
        Path(season, f"day {day:04}.pak").write_bytes(data)
        length += len(data)
    print(json.dumps(found))


main(*sys.argv[1:])
