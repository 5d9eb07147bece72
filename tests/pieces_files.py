"""The worked files: valid ones of every shape, and damaged ones of every refusal number that a file can get."""
import hashlib

from pieces_rules import number


class Maker:
    """Makes the parts of one file. What the rules leave free is noise, which the file's name alone decides."""

    def __init__(self, name):
        self.stream = hashlib.shake_256(name.encode()).digest(100000)

    def noise(self, size):
        taken, self.stream = self.stream[:size], self.stream[size:]
        return taken

    def header(self, song=1, restart=0, channels=1, patterns=1, instruments=0, size=276, mark=0x1A, version=0x0104, orders=256):
        front = self.noise(37) + bytes([mark]) + self.noise(20) + number(version, 2) + number(size, 4)
        counts = b''.join(number(count, 2) for count in (song, restart, channels, patterns, instruments))
        return front + counts + self.noise(6) + self.noise(max(orders, size - 20))

    def pattern(self, rows, data=b'', length=9, size=None):
        front = number(length, 4) + self.noise(1) + number(rows, 2) + number(len(data) if size is None else size, 2)
        return front + self.noise(length - 9) + bytes(data)

    def head(self, length, start=0, loop=0, form=0, kind=0, size=40, tunes=(0x80, 0x1D)):
        numbers = number(length, 4) + number(start, 4) + number(loop, 4)
        return numbers + bytes([64, tunes[0], form, 128, tunes[1], kind]) + self.noise(size - 18)

    def instrument(self, heads=(), data=b'', size=263, head_size=40, count=None):
        front = number(size, 4) + self.noise(23) + number(len(heads) if count is None else count, 2)
        rest = number(head_size, 4) + self.noise(size - 33) if size >= 33 else self.noise(max(0, size - 29))
        return front + rest + b''.join(heads) + data

    def small(self, **changes):
        """A header with changes, and 64 empty rows."""
        return self.header(**changes) + self.pattern(64)

    def bare(self, song=1, size=None, **changes):
        """The same of a stripped module: no byte follows the orders but those that a larger size is for."""
        return self.header(song, size=20 + song if size is None else size, mark=0, version=0, orders=song, **changes) + self.pattern(64)

    def cut(self, size, heads=(), data=b'', head_size=0, count=None, voice=None):
        """An instrument of a stripped module, whatever of it is in I bytes; what is behind its sample count may be given."""
        counts = number(len(heads) if count is None else count, 2) + number(head_size, 4)
        front = number(size, 4) + self.noise(23) + counts + (self.noise(max(0, size - 33)) if voice is None else voice)
        return front[:size] + b''.join(head[:head_size] for head in heads) + data

    def voices(self, *heads, data=b'', **changes):
        """The smallest file with one instrument of these sample headers."""
        return self.small(instruments=1) + self.instrument(heads, data, **changes)


def marked(lead):
    """A marked cell whose kept fields count up from 1."""
    return bytes([lead]) + bytes(range(1, 1 + bin(lead & 31).count('1')))


def cell(seed):
    """A full, half full or empty cell of a large pattern, by a byte."""
    if seed % 5 == 0:
        return bytes([1 + seed % 97, seed | 1, 1, 2, 3])
    if seed % 5 == 1:
        return bytes([0x80 | seed & 31]) + bytes([seed % 98]) * bin(seed & 31).count('1')
    return b'\x80' if seed % 2 else b'\xE0'


# The bench pieces of the rules

def bench(make):
    return make.header() + bytes([9, 0, 0, 0, 0, 0x40, 0, 0, 0])


BENCH = {
    'bench': bench,
    'header_size_275': lambda make: make.small(size=275),
    'header_size_276': lambda make: make.small(size=276),
    'rows_0': lambda make: make.header() + make.pattern(0),
    'rows_1': lambda make: make.header() + make.pattern(1),
    'rows_256': lambda make: make.header() + make.pattern(256),
    'rows_257': lambda make: make.header() + make.pattern(257),
}


# Valid files

def every_cell(make):
    """Both plain forms, every marked form, and every lead byte of an empty one, in one pattern of 8 channels."""
    forms = [bytes([97, 0, 0, 0, 0]), bytes([1, 2, 3, 4, 5]), bytes(5)]
    forms += [marked(lead) for lead in range(0x80, 0xA0)] + [marked(0xE0 + bits) for bits in range(32)]
    forms += [bytes([0x9F, 0, 0, 0, 0, 0]), bytes([0x90, 0]), b'\xA0', b'\xC0', b'\xE0']
    return make.header(song=4, restart=4, channels=8) + make.pattern(9, b''.join(forms))


def every_note(make):
    """Each note alone, in a full marked cell, and if it can lead in a full plain one, in one pattern of 64 channels."""
    forms = [bytes([0x81, note]) for note in range(256)] + [bytes([0x9F, note, 1, 2, 3, 4]) for note in range(256)]
    forms += [bytes([note, 1, 2, 3, 4]) for note in range(128)]
    return make.header(channels=64) + make.pattern(10, b''.join(forms))


def every_empty(make):
    """64 and 32 empty rows, stored in each way that there is."""
    ways = [b'\x80', b'\xE0', bytes(5), bytes([0x9F, 0, 0, 0, 0, 0])]
    patterns = b''.join(make.pattern(64, way * 64) + make.pattern(32, way * 32) for way in ways)
    return make.header(song=2, restart=1, patterns=9) + patterns + make.pattern(32)


def three_patterns(make):
    first = make.pattern(2, [0x83, 1, 1, 0x80, 0xE0, 1, 1, 0, 5, 0x1F], length=11)
    second = make.pattern(1, [0x31, 2, 0x40, 0x0F, 6, 0x9F, 0, 1, 0, 0, 0])
    return make.header(song=3, restart=2, channels=2, patterns=3, size=280) + first + second + make.pattern(7) + make.noise(5)


def every_instrument(make):
    """With and without samples, at each size's limit and above; samples of both widths, every loop, and length 0."""
    none = [make.instrument(size=size) for size in (29, 30, 33, 263, 300)]
    one = make.instrument([make.head(5, 2, 3, form=1)], make.noise(5))
    forms = [(6, 0, 6, 0x12), (0, 0, 0, 0x10), (7, 9, 9, 0), (0, 0, 0, 2), (4, 5, 0, 1, 0x55), (8, 0, 0, 0xFC, 0xAC)]
    more = [make.head(*form, size=47) for form in forms]
    wide = make.instrument(more, make.noise(25), size=270, head_size=47)
    return make.small(instruments=7, song=9, restart=200) + b''.join(none[:3]) + one + b''.join(none[3:]) + wide


def every_tune(make):
    """16 samples, whose finetune and relative note go round the sign."""
    tunes = [(0, 0x80), (1, 0xFF), (0x7F, 0), (0x80, 0x7F), (0xFF, 0x80)] * 4
    heads = [make.head(at, form=16 * (1 - at % 2), tunes=tunes[at]) for at in range(16)]
    return make.voices(*heads, data=make.noise(120))


def waves(make):
    """Deltas that wrap, at both widths."""
    narrow = bytes([0x7F, 1, 0x80, 0x80, 0xFF, 0, 1]) + make.noise(300)
    wide = bytes([0xFF, 0x7F, 1, 0, 0, 0x80, 0, 0x80, 0xFF, 0xFF]) + make.noise(300)
    low = bytes([5, 0, 0xFB, 0xFF, 0x80, 0xFF, 0xFF, 0])
    heads = [make.head(len(narrow)), make.head(len(wide), form=16), make.head(len(low), form=16)]
    return make.voices(*heads, data=narrow + wide + low)


# Document 001's ADPCM example: the table, and the indexes of 14 values.
ADPCM_EXAMPLE = bytes.fromhex('0001020408102040FFFEFCF8F0E0D0C0' '00080018310281')


def adpcm_example(make):
    """At its length and at one less, where the last high half is not used."""
    return make.voices(make.head(14, kind=0xAD), make.head(13, kind=0xAD), data=2 * ADPCM_EXAMPLE)


def every_adpcm(make):
    """ADPCM samples of small lengths and longer ones, none, and looped to their last value, among plain ones of both widths."""
    forms = [(1, 0, 0, 0, 0xAD), (4, 0, 0, 0x10), (2, 0, 2, 1, 0xAD), (0, 0, 0, 0, 0xAD), (3, 2, 1, 2, 0xAD), (31, 9, 9, 0xEC, 0xAD),
             (5, 0, 0, 0), (257, 0, 257, 1, 0xAD), (300, 0, 0, 0, 0xAD)]
    sizes = [17, 4, 17, 0, 18, 32, 5, 145, 166]
    return make.voices(*(make.head(*form, size=43) for form in forms), data=make.noise(sum(sizes)), head_size=43)


def every_loop(make):
    """Loops forward and both ways, at both widths, at a sample's start and end; odd numbers at 8 bits, and where nothing loops."""
    forms = [(9, 3, 5, 1), (9, 0, 9, 2), (9, 8, 1, 0xED), (12, 0, 12, 0x11), (12, 4, 8, 0x12), (12, 10, 2, 0xFE), (12, 3, 5, 0x10),
             (12, 3, 0, 0x11), (12, 0xFFFFFFFF, 0, 2), (9, 7, 1, 0)]
    return make.voices(*(make.head(*form) for form in forms), data=make.noise(sum(form[0] for form in forms)))


def long_and_trailing(make):
    """Long headers everywhere, and bytes after the last instrument."""
    patterns = make.pattern(3, [0x80] * 6, length=40) + make.pattern(100, length=9) + make.pattern(64, [0xE0] * 128, length=10)
    voice = make.instrument([make.head(3, size=90), make.head(2, form=16, size=90)], make.noise(5), size=500, head_size=90)
    header = make.header(song=256, restart=255, channels=2, patterns=3, instruments=2, size=1000)
    return header + patterns + voice + make.instrument(size=100) + make.noise(77)


def largest_pattern(make):
    """256 rows of 64 channels in 65,535 bytes, which is the most."""
    cells = [cell(seed) for seed in make.noise(256 * 64)]
    at, left = 0, 65535 - sum(map(len, cells))
    while left > 0:
        longer = bytes([0x9F, 128 + at % 128, 1, 2, 3, 4][:min(6, len(cells[at]) + left)])
        if len(cells[at]) == 1 and len(longer) == 6:
            left -= 5
            cells[at] = longer
        elif len(cells[at]) == 1 and left < 5:
            cells[at] = bytes([0x80 + 2 ** left - 1]) + bytes(range(1, left + 1))
            left = 0
        at += 1
    return make.header(channels=64) + make.pattern(256, b''.join(cells))


def most_structures(make):
    """256 patterns and 128 instruments."""
    patterns = b''.join(make.pattern(1 + at, [0x80] * 64 if at == 0 else b'') for at in range(256))
    instruments = b''.join(make.instrument([make.head(1)] if at % 4 == 0 else (), make.noise(1 if at % 4 == 0 else 0),
                                           size=263 if at % 4 == 0 else 29) for at in range(128))
    return make.header(song=256, channels=64, patterns=256, instruments=128) + patterns + instruments


def stripped_sizes(make):
    """Instruments without samples: each I around its fields' ends; and names of zeros, which leave nothing, and with a letter last."""
    sizes = [make.cut(size) for size in (4, 5, 25, 26, 27, 28, 29, 33, 300)]
    names = [number(29, 4) + bytes(25), number(28, 4) + b'a' + bytes(23), number(27, 4) + bytes(20) + b'zz' + bytes(1)]
    return make.bare(instruments=12) + b''.join(sizes + names)


def stripped_headers(make):
    """Sample headers that end around their fields' ends, in instruments that end around H."""
    heads = [make.head(3, 1, 2, form=1), make.head(2, form=16)]
    forms = [(28, 2, 0, 0), (29, 1, 0, 0), (30, 2, 1, 5), (32, 1, 4, 3), (33, 1, 14, 3), (34, 2, 15, 5)]
    instruments = [make.cut(size, heads[:count], make.noise(data), head_size) for size, count, head_size, data in forms]
    return make.bare(instruments=6) + b''.join(instruments)


def stripped_voices(make):
    """A note map and envelopes that end in zeros, or not; sample headers that are whole, longer, or end in zeros."""
    plain = make.head(4, 0, 4, form=0x12)
    zeros = make.head(5, kind=0xAD)[:18] + bytes(29)
    forms = [(241, [plain], 4, 40, None), (300, [zeros, zeros], 38, 47, bytes(100) + b'z' + bytes(107) + make.noise(59)),
             (100, [zeros], 19, 40, bytes(67))]
    instruments = [make.cut(size, heads, make.noise(data), head, voice=voice) for size, heads, data, head, voice in forms]
    return make.bare(song=5, restart=5, size=300, instruments=3) + b''.join(instruments) + make.noise(9)


VALID = {
    'rows_256_stored': lambda make: make.header(restart=1) + make.pattern(256, [0x80] * 256),
    'every_cell': every_cell,
    'every_note': every_note,
    'note_98': lambda make: make.header() + make.pattern(2, [0x80, 0x81, 0x62]),
    'note_98_plain': lambda make: make.header() + make.pattern(3, [0x62, 0, 0, 0, 0, 0x80, 0x80]),
    'note_127_plain': lambda make: make.header() + make.pattern(1, [0x7F, 0, 0, 0, 0]),
    'note_98_out_of_step': lambda make: make.header() + make.pattern(2, [0x82, 0x62, 0x8E, 1, 2, 3]),
    'every_empty': every_empty,
    'three_patterns': three_patterns,
    'every_instrument': every_instrument,
    'every_tune': every_tune,
    'waves': waves,
    'adpcm_example': adpcm_example,
    'every_adpcm': every_adpcm,
    'every_loop': every_loop,
    'long_and_trailing': long_and_trailing,
    'largest_pattern': largest_pattern,
    'most_structures': most_structures,
    'stripped': lambda make: make.bare(),
    'stripped_song_256': lambda make: make.bare(song=256, restart=255),
    'stripped_sizes': stripped_sizes,
    'stripped_headers': stripped_headers,
    'stripped_voices': stripped_voices,
    'stripped_no_heads': lambda make: make.bare(instruments=1) + make.cut(28, count=3),
    'stripped_count_cut': lambda make: make.bare(instruments=1) + make.cut(28, count=256 + 1),
    'loop_to_the_end': lambda make: make.voices(make.head(4, 1, 3, form=2), data=make.noise(4)),
    'no_loop': lambda make: make.voices(make.head(4, 0xFFFFFFFF, 0xFFFFFFFF), data=make.noise(4)),
    'no_loop_length': lambda make: make.voices(make.head(4, 0xFFFFFFFF, 0, form=1), data=make.noise(4)),
}


# Damaged files

DAMAGED_HEADER = {
    'nothing': lambda make: b'',
    'cut_header': lambda make: make.small()[:79],
    'cut_orders': lambda make: make.small()[:335],
    'cut_orders_song_0': lambda make: make.small(song=0)[:335],
    'long_header': lambda make: make.small()[:60] + number(0xFFFFFFFF, 4) + make.small()[64:],
    'no_mark': lambda make: make.small(mark=0, size=0),
    'version_0103': lambda make: make.small(version=0x0103),
    'version_0401': lambda make: make.small(version=0x0401),
    'header_size_0_song_0': lambda make: make.small(song=0, size=0),
    'song_0': lambda make: make.small(song=0),
    'song_257': lambda make: make.small(song=257),
    'channels_0': lambda make: make.small(channels=0),
    'channels_65': lambda make: make.small(channels=65),
    'patterns_0': lambda make: make.small(patterns=0),
    'patterns_257': lambda make: make.small(patterns=257),
    'instruments_129': lambda make: make.small(instruments=129),
}

DAMAGED_PATTERN = {
    'no_pattern': lambda make: make.header(),
    'cut_pattern_header': lambda make: make.small()[:344],
    'cut_pattern': lambda make: make.header() + make.pattern(2, [0x80], size=9),
    'cut_long_header': lambda make: make.header() + make.pattern(2, length=30)[:29],
    'short_pattern_header': lambda make: make.header() + number(8, 4) + make.pattern(64)[4:],
    'longest_pattern_header': lambda make: make.header() + number(0xFFFFFFFF, 4) + make.pattern(64)[4:],
    'cut_cell': lambda make: make.header() + make.pattern(2, [0x80]),
    'cut_marked_cell': lambda make: make.header() + make.pattern(1, [0x83, 0x62]),
    'cut_plain_cell': lambda make: make.header() + make.pattern(1, [0x62, 0, 0, 0]),
    'bytes_left': lambda make: make.header() + make.pattern(1, [0x80, 0x80]),
    'note_98_left': lambda make: make.header() + make.pattern(2, [0x62, 0, 0, 0, 0, 0x80, 0x80]),
    'note_98_cut': lambda make: make.header() + make.pattern(3, [0x80, 0x81, 0x62]),
    'rows_0_behind_a_note': lambda make: make.header(patterns=2) + make.pattern(1, [0x81, 0x62]) + make.pattern(0),
    'second_pattern_cut': lambda make: make.header(patterns=2) + make.pattern(1, [0x80]) + make.pattern(1)[:8],
}

DAMAGED_INSTRUMENT = {
    'no_instrument': lambda make: make.small(instruments=1),
    'cut_instrument_front': lambda make: make.small(instruments=1) + make.instrument(size=29)[:28],
    'instrument_28': lambda make: make.small(instruments=1) + number(28, 4) + make.noise(23) + number(0, 2),
    'samples_17': lambda make: make.voices(count=17),
    'instrument_262': lambda make: make.voices(make.head(0), size=262),
    'cut_instrument': lambda make: make.small(instruments=1) + make.instrument(size=60)[:50],
    'sample_header_39': lambda make: make.voices(make.head(0, size=39), head_size=39),
    'sample_header_39_cut': lambda make: make.voices(count=2, head_size=39),
    'cut_sample_headers': lambda make: make.voices(make.head(0), count=2),
    'adpcm_16_bit': lambda make: make.voices(make.head(0), make.head(0, form=0x13, kind=0xAD)),
    'loops_before_adpcm': lambda make: make.voices(make.head(0, form=3), make.head(0, form=0x10, kind=0xAD)),
    'adpcm_loop_past_the_end': lambda make: make.voices(make.head(4, 2, 3, form=1, kind=0xAD), data=make.noise(18)),
    'cut_adpcm_data': lambda make: make.voices(make.head(5, kind=0xAD), data=make.noise(18)),
    'longest_adpcm': lambda make: make.voices(make.head(0xFFFFFFFF, kind=0xAD), data=make.noise(16)),
    'loop_bits_3': lambda make: make.voices(make.head(4, form=3), data=make.noise(4)),
    'odd_loop_start': lambda make: make.voices(make.head(8, 1, 2, form=0x11), data=make.noise(8)),
    'odd_loop_length': lambda make: make.voices(make.head(0), make.head(8, 2, 3, form=0x12), data=make.noise(8)),
    'odd_loop_of_adpcm': lambda make: make.voices(make.head(8, 1, 3, form=0x11, kind=0xAD), data=make.noise(20)),
    'odd_16_bit': lambda make: make.voices(make.head(3, form=16), data=make.noise(3)),
    'loop_past_the_end': lambda make: make.voices(make.head(4, 2, 3, form=1), data=make.noise(4)),
    'loop_sum_of_33_bits': lambda make: make.voices(make.head(4, 0xFFFFFFFF, 2, form=1), data=make.noise(4)),
    'cut_sample_data': lambda make: make.voices(make.head(4), make.head(9), data=make.noise(8)),
    'fault_before_data': lambda make: make.voices(make.head(400), make.head(4, form=3), data=make.noise(8)),
    'second_instrument_10': lambda make: make.small(instruments=2) + make.instrument(size=29) + make.instrument(count=17, size=29),
}


DAMAGED_STRIPPED = {
    'stripped_by_version': lambda make: make.small(version=0),
    'stripped_header_20': lambda make: make.bare(size=20),
    'stripped_header_22': lambda make: make.bare(song=3, size=22),
    'stripped_song_65535': lambda make: make.small(song=65535, mark=0, version=0),
    'stripped_song_0': lambda make: make.bare(song=0),
    'stripped_song_257': lambda make: make.bare(song=257),
    'stripped_cut_orders': lambda make: make.bare(song=3)[:82],
    'stripped_cut_front': lambda make: make.bare(instruments=1) + make.cut(4)[:3],
    'stripped_size_3': lambda make: make.bare(instruments=1) + number(3, 4) + make.noise(40),
    'stripped_cut_instrument': lambda make: make.bare(instruments=1) + make.cut(40, count=17)[:35],
    'stripped_samples_17': lambda make: make.bare(instruments=1) + make.cut(28, count=17),
    'stripped_samples_272': lambda make: make.bare(instruments=1) + make.cut(29, count=272),
    'stripped_cut_headers': lambda make: make.bare(instruments=1) + make.cut(30, count=2, head_size=5) + make.noise(9),
    'stripped_adpcm_16_bit': lambda make: make.bare(instruments=1) + make.cut(30, [make.head(0), make.head(0, form=16, kind=0xAD)], head_size=18),
    'stripped_loop': lambda make: make.bare(instruments=1) + make.cut(30, [make.head(4, 2, 3, form=1)], make.noise(4), 15),
    'stripped_odd_loop': lambda make: make.bare(instruments=1) + make.cut(30, [make.head(8, 1, 2, form=17)], make.noise(8), 15),
    'stripped_cut_data': lambda make: make.bare(instruments=1) + make.cut(30, [make.head(4), make.head(9)], make.noise(12), 1),
}


def made(files):
    return {name: parts(Maker(name)) for name, parts in files.items()}


def valid_files():
    return made(VALID)


def damaged_files():
    return made({**DAMAGED_HEADER, **DAMAGED_PATTERN, **DAMAGED_INSTRUMENT, **DAMAGED_STRIPPED})


def bench_files():
    return made(BENCH)
