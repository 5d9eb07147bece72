"""The rules, as a reference of its own: written from the rules paper alone, with nothing of the library."""
from dataclasses import dataclass


class Refused(Exception):
    """A refusal: its number and its place."""

    def __init__(self, number, place):
        super().__init__(number, place)
        self.number, self.place = number, place


def need(holds, number, place):
    if not holds:
        raise Refused(number, place)


def little(data, offset, size):
    return int.from_bytes(data[offset:offset + size], 'little')


def number(value, size):
    return value.to_bytes(size, 'little')


def padded(data, size):
    """So many bytes, of which those that are not there are 0."""
    return data[:size] + bytes(max(0, size - len(data)))


def signed(value, bits):
    return (value + 2 ** (bits - 1)) % 2 ** bits - 2 ** (bits - 1)


# What a file holds


FILE_MOST = 16777216
NO_TRACKER = bytes(20)


@dataclass
class Pattern:
    place: int
    data_place: int
    stored: bytes
    rows: int
    cells: bytes


@dataclass
class Sample:
    place: int
    head_size: int
    head: bytes
    data_place: int
    data: bytes

    def row(self):
        return self.place, self.data_place, len(self.data), width_of(self.head), *loop_of(self.head)

    def tunes(self):
        return signed(self.head[13], 8), signed(self.head[16], 8)


@dataclass
class Instrument:
    place: int
    name_and_type: bytes
    voice: bytes
    samples: list


@dataclass
class Module:
    stripped: bool
    header: bytes
    channels: int
    patterns: list
    instruments: list
    end: int

    def samples(self):
        return [sample for instrument in self.instruments for sample in instrument.samples]

    def counts(self):
        return self.end, self.channels, len(self.patterns), len(self.instruments), len(self.samples())


# Cells and stored patterns


def fields_of(lead, following):
    """The five fields of a cell, by its lead byte and what follows."""
    if lead < 128:
        return bytes([lead]) + following
    left = iter(following)
    return bytes(next(left) if lead >> bit & 1 else 0 for bit in range(5))


def read_cells(data, count, base):
    """Cells that fill the data, five bytes each; places count from `base`."""
    cells, at = bytearray(), 0
    for _ in range(count):
        need(at < len(data), 7, base + at)
        lead = data[at]
        used = 5 if lead < 128 else 1 + bin(lead & 31).count('1')
        need(at + used <= len(data), 7, base + at)
        cells += fields_of(lead, data[at + 1:at + used])
        at += used
    need(at == len(data), 8, base + at)
    return bytes(cells)


def read_stored(rows, channels, data, base):
    """The cells of a stored form."""
    if not data:
        return bytes(rows * channels * 5)
    return read_cells(data, rows * channels, base)


def shortest_cell(fields):
    kept = bytes(field for field in fields if field)
    if len(kept) == 5 and fields[0] < 128:
        return fields
    return bytes([128 + sum(1 << bit for bit in range(5) if fields[bit])]) + kept


def shortest(cells):
    """The data of a pattern's shortest stored form."""
    if not any(cells):
        return b''
    return b''.join(shortest_cell(cells[at:at + 5]) for at in range(0, len(cells), 5))


def unpack(rows, channels, data, room):
    need(1 <= rows <= 256 and 1 <= channels <= 64 and len(data) <= 65535, 16, 0)
    cells = read_stored(rows, channels, data, 0)
    need(len(cells) <= room, 14, 0)
    return rows, cells


# The walk over a file


def is_stripped(file):
    return file[37] == 0 and little(file, 58, 2) == 0


def least_header(stripped, song):
    return 20 + song if stripped else 276


def read_header(file):
    """The patterns' and instruments' numbers, the channels, and where the first pattern stands."""
    need(len(file) <= FILE_MOST, 2, 0)
    need(len(file) >= 80, 1, 0)
    need(file[37] == 0x1A and little(file, 58, 2) == 0x0104 or is_stripped(file), 3, 0)
    size = little(file, 60, 4)
    song, channels, patterns, instruments = (little(file, offset, 2) for offset in (64, 68, 70, 72))
    need(size >= least_header(is_stripped(file), song), 4, 0)
    need(1 <= song <= 256 and 1 <= patterns <= 256 and 1 <= channels <= 64 and instruments <= 128, 5, 0)
    need(size + 60 <= len(file), 1, 0)
    return patterns, instruments, channels, size + 60


def read_pattern(file, place, channels):
    need(place + 9 <= len(file), 1, place)
    length, rows, size = little(file, place, 4), little(file, place + 5, 2), little(file, place + 7, 2)
    need(length >= 9 and 1 <= rows <= 256, 6, place)
    need(place + length + size <= len(file), 1, place)
    data_place = place + length
    stored = file[data_place:data_place + size]
    return Pattern(place, data_place, stored, rows, read_stored(rows, channels, stored, data_place))


def width_of(head):
    return 16 if head[14] & 16 else 8


def is_adpcm(head):
    return head[17] == 0xAD


def data_size(head):
    """The bytes of a sample's data: ADPCM has a table of 16, and two values to a byte."""
    length = little(head, 0, 4)
    return 16 + (length + 1) // 2 if is_adpcm(head) and length else length


def loops(head):
    return little(head, 8, 4) > 0 and head[14] % 4 > 0


def loop_of(head):
    """Kind, start and length of a sample's loop, in samples; without a loop they are 0."""
    size = width_of(head) // 8
    return (head[14] % 4, little(head, 4, 4) // size, little(head, 8, 4) // size) if loops(head) else (0, 0, 0)


def try_head(head, place):
    length, start, loop = (little(head, offset, 4) for offset in (0, 4, 8))
    need(not is_adpcm(head) or width_of(head) == 8, 12, place)
    need(head[14] % 4 != 3, 13, place)
    need(width_of(head) == 8 or length % 2 == 0, 13, place)
    need(not loops(head) or start + loop <= length, 13, place)
    need(not loops(head) or width_of(head) == 8 or start % 2 == 0, 13, place)
    need(not loops(head) or width_of(head) == 8 or loop % 2 == 0, 13, place)


def read_samples(file, instrument, first, size, count):
    """An instrument's samples: all headers are tried before any data is."""
    data_place = first + count * size
    need(data_place <= len(file), 1, instrument)
    places = [first + at * size for at in range(count)]
    heads = [padded(file[place:place + size], 40) for place in places]
    for place, head in zip(places, heads):
        try_head(head, place)
    samples = []
    for place, head in zip(places, heads):
        end = data_place + data_size(head)
        need(end <= len(file), 1, data_place)
        samples.append(Sample(place, size, head, data_place, file[data_place:end]))
        data_place = end
    return samples, data_place


def normal_fields(file, place):
    """An instrument's bytes up to the reserved ones, as far as they are content."""
    need(place + 29 <= len(file), 1, place)
    size, count = little(file, place, 4), little(file, place + 27, 2)
    need(size >= 29 and count <= 16 and (count == 0 or size >= 263), 10, place)
    need(place + size <= len(file), 1, place)
    need(count == 0 or little(file, place + 29, 4) >= 40, 11, place)
    return file[place:place + 241]


def stripped_fields(file, place):
    """The same of a stripped module: from offset I on they read as 0."""
    need(place + 4 <= len(file), 1, place)
    size = little(file, place, 4)
    need(size >= 4, 10, place)
    need(place + size <= len(file), 1, place)
    fields = padded(file[place:place + size], 241)
    need(little(fields, 27, 2) <= 16, 10, place)
    return fields


def read_instrument(file, place):
    """An instrument and where it ends."""
    fields = stripped_fields(file, place) if is_stripped(file) else normal_fields(file, place)
    heads, count = place + little(fields, 0, 4), little(fields, 27, 2)
    if count == 0:
        return Instrument(place, fields[4:27], b'', []), heads
    samples, end = read_samples(file, place, heads, little(fields, 29, 4), count)
    return Instrument(place, fields[4:27], fields[33:241], samples), end


def read_module(file):
    pattern_count, instrument_count, channels, place = read_header(file)
    patterns, instruments = [], []
    for _ in range(pattern_count):
        patterns.append(read_pattern(file, place, channels))
        place = patterns[-1].data_place + len(patterns[-1].stored)
    for _ in range(instrument_count):
        instrument, place = read_instrument(file, place)
        instruments.append(instrument)
    return Module(is_stripped(file), file[:336], channels, patterns, instruments, place)


# Tables and structures


def pattern_table(module):
    return [entry for pattern in module.patterns for entry in (pattern.data_place, len(pattern.stored), pattern.rows)]


def instrument_table(module):
    table, first = [], 0
    for instrument in module.instruments:
        table += [instrument.place, len(instrument.samples), first]
        first += len(instrument.samples)
    return table


def sample_table(module):
    return [entry for sample in module.samples() for entry in sample.row()]


def tune_table(module):
    return [tune for sample in module.samples() for tune in sample.tunes()]


def structures(module):
    """Kind and place of each, in file order."""
    yield from (('pattern', pattern.place) for pattern in module.patterns)
    for instrument in module.instruments:
        yield 'instrument', instrument.place
        yield from (('sample', sample.place) for sample in instrument.samples)


# Numbers to a row of a sample table
STRIDE = 7


def ask(file, table, wanted):
    """Place and length of a sample's data, by a table."""
    need(wanted < len(table) // STRIDE, 16, 0)
    place, length = table[STRIDE * wanted + 1:STRIDE * wanted + 3]
    need(place + length <= len(file), 16, 0)
    return place, length


# Deltas


def decode(width, data, room):
    need(width in (8, 16), 16, 0)
    size = width // 8
    need(len(data) % size == 0, 16, 0)
    need(len(data) // size <= room, 14, 0)
    values, value = [], 0
    for at in range(0, len(data), size):
        value = signed(value + little(data, at, size), width)
        values.append(value)
    return values


def decode_adpcm(length, data, room):
    need(len(data) == (16 + (length + 1) // 2 if length else 0), 16, 0)
    need(length <= room, 14, 0)
    values, value = [], 0
    for at in range(length):
        index = data[16 + at // 2] // 16 ** (at % 2) % 16
        value = signed(value + data[index], 8)
        values.append(value)
    return values


def decode_sample(head, data, room):
    """By the kind that the header says, and by its length or its width."""
    return decode_adpcm(little(head, 0, 4), data, room) if is_adpcm(head) else decode(width_of(head), data, room)


def code(width, values, room):
    need(width in (8, 16), 16, 0)
    need(all(signed(value, width) == value for value in values), 16, 0)
    need(len(values) * (width // 8) <= room, 14, 0)
    befores = [0] + values[:-1]
    return b''.join(number((value - before) % 2 ** width, width // 8) for value, before in zip(values, befores))


# The press


def pressed_header(module, stripped, tracker):
    header = module.header
    song, restart = little(header, 64, 2), little(header, 66, 2)
    text = bytes(17) if stripped else b'Extended module: '
    mark, version = (0, 0) if stripped else (0x1A, 0x0104)
    size = least_header(stripped, song)
    return (text + header[17:37] + bytes([mark]) + tracker + number(version, 2) + number(size, 4) + header[64:66]
            + number(restart if restart < song else 0, 2) + header[68:80] + padded(header[80:80 + song], size - 20))


def pressed_pattern(pattern):
    data = shortest(pattern.cells)
    return number(9, 4) + b'\0' + number(pattern.rows, 2) + number(len(data), 2) + data


def pressed_normal(instrument):
    count = len(instrument.samples)
    front = number(263 if count else 29, 4) + instrument.name_and_type + number(count, 2)
    return front + (number(40, 4) + instrument.voice + bytes(22) if count else b'') + joined_samples(instrument, 40)


def pressed_stripped(instrument):
    """The smallest H, then the smallest I: neither cuts off anything but zeros."""
    head_size = max((len(sample.head.rstrip(b'\0')) for sample in instrument.samples), default=0)
    fields = instrument.name_and_type + number(len(instrument.samples), 2) + number(head_size, 4) + instrument.voice
    kept = fields.rstrip(b'\0')
    return number(4 + len(kept), 4) + kept + joined_samples(instrument, head_size)


def joined_samples(instrument, head_size):
    return b''.join(sample.head[:head_size] for sample in instrument.samples) + b''.join(sample.data for sample in instrument.samples)


def written(module, stripped, tracker):
    """The shortest file of a kind, with a tracker name."""
    pressed_instrument = pressed_stripped if stripped else pressed_normal
    return (pressed_header(module, stripped, tracker) + b''.join(map(pressed_pattern, module.patterns))
            + b''.join(map(pressed_instrument, module.instruments)))


def press(file, room):
    module = read_module(file)
    pressed = written(module, module.stripped, NO_TRACKER if module.stripped else module.header[38:58])
    need(len(pressed) <= room, 14, 0)
    return pressed


def convert(file, stripped, room):
    converted = written(read_module(file), stripped, NO_TRACKER)
    need(len(converted) <= FILE_MOST, 2, 0)
    need(len(converted) <= room, 14, 0)
    return converted
