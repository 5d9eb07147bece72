#!/usr/bin/env python3
"""What the program `pieces` runs on, and what it must write: crates/pieces/data, stdin and stdout.

    tests/pieces.py             makes them anew
    tests/pieces.py --check     says whether they are what it makes

A line of stdin is a file's name, a call and numbers; stdout has each line again, with the call's answer (refusal number, place, two
results) and a checksum of the lent memory afterwards. The files are those of pieces_files.py; the answers come from pieces_rules.py.
"""
import sys
from itertools import islice
from pathlib import Path

sys.dont_write_bytecode = True

import pieces_rules as rules  # noqa: E402
from pieces_files import bench_files, damaged_files, valid_files  # noqa: E402

FOLDER = Path(__file__).resolve().parent.parent / 'crates' / 'pieces'

# The memory that the program lends: every byte of it is 5A hex.
MEMORY = 81936
LISTED_MOST = 65535
BEYOND = 16
VALUES = 1040
TABLES = 776, 392, 456, 132
BYTE, VALUE, ENTRY = 0x5A, 0x5A5A, 0x5A5A5A5A


def checksum(numbers):
    total = 1
    for entry in numbers:
        total = (total * 257 + entry) % 4294967311
    return total


def filled(written, filler, size):
    """Lent memory of some size, after something was written to its front."""
    return list(written) + [filler] * (size - len(written))


def sum_of_bytes(written, room):
    return f' sum {checksum(filled(written, BYTE, min(room + BEYOND, MEMORY)))}'


def answered(call, *arguments):
    """What a call of the reference gives, or nothing; and the answer that a refusal is, or none."""
    try:
        return call(*arguments), None
    except rules.Refused as refusal:
        return None, f' {refusal.number} {refusal.place} 0 0'


def accepted(first, second=0):
    return f' 0 0 {first} {second}'


# What the program writes of each call


def counts(module):
    end, channels, *others = module.counts()
    return accepted(end, channels) + ''.join(f' {count}' for count in others)


def say_check(file):
    module, refusal = answered(rules.read_module, file)
    return refusal or counts(module)


def say_structures(file):
    module, refusal = answered(rules.read_module, file)
    return refusal or ''.join(f' {kind} {place}' for kind, place in rules.structures(module)) + ' end'


def say_reader(file):
    module, refusal = answered(rules.read_module, file)
    kinds = [kind for kind, _ in rules.structures(module)] if module else []
    return refusal or accepted(kinds.count('pattern'), kinds.count('instrument')) + f" {kinds.count('sample')}"


def say_line(file):
    module, refusal = answered(rules.read_module, file)
    if len(file) > LISTED_MOST:
        return ' refused 2 0\n'
    if refusal:
        return ' refused ' + ' '.join(refusal.split()[:2]) + '\n'
    return ' ok ' + ' '.join(map(str, module.counts())) + '\n'


def say_press(file, room):
    pressed, refusal = answered(rules.press, file, room)
    return (refusal or accepted(len(pressed))) + sum_of_bytes(pressed or b'', room)


def say_convert(file, stripped, room):
    converted, refusal = answered(rules.convert, file, stripped, room)
    return (refusal or accepted(len(converted))) + sum_of_bytes(converted or b'', room)


def tables_of(module):
    return [rules.pattern_table(module), rules.instrument_table(module), rules.sample_table(module), rules.tune_table(module)]


def check_into(file, rooms):
    """The counts and the tables of a file, if the rooms, in numbers, will do."""
    module = rules.read_module(file)
    for table, room in zip(tables_of(module), rooms):
        rules.need(len(table) <= room, 14, 0)
    return module


def say_tables(file, *rooms):
    module, refusal = answered(check_into, file, rooms)
    tables = tables_of(module) if module else [[], [], [], []]
    patterns, instruments, samples = (filled(table, ENTRY, size) for table, size in zip(tables, TABLES[:3]))
    tunes = filled([tune % 65536 for tune in tables[3]], BYTE, TABLES[3])
    return (refusal or counts(module)) + f' sum {checksum(patterns + instruments + samples + tunes)}'


def say_ask(file, wanted, lent, size):
    table = filled(rules.sample_table(rules.read_module(file)), ENTRY, TABLES[2])[:lent]
    cut = file[:size]
    lies, refusal = answered(rules.ask, cut, table, wanted)
    place, length = lies or (0, 0)
    stretch = cut[place:place + length]
    return (refusal or accepted(place, length)) + f' {16 if refusal else 0} {length} sum {checksum(stretch)}'


def say_deltas(file, wanted, width, value_room, code_width, room):
    data = rules.read_module(file).samples()[wanted].data
    values, refusal = answered(rules.decode, width, data, value_room)
    decoded = (refusal or accepted(len(values))) + f' sum {checksum(filled([value % 65536 for value in values or []], VALUE, VALUES))}'
    coded, refusal = answered(rules.code, code_width, values or [], room)
    return decoded + (refusal or accepted(len(coded))) + sum_of_bytes(coded or b'', room)


def say_values(file, wanted, room, left_out, head_size):
    sample = rules.read_module(file).samples()[wanted]
    data = sample.data[:len(sample.data) - left_out]
    values, refusal = answered(rules.decode_sample, sample.head, data, room)
    return (refusal or accepted(len(values))) + f' sum {checksum(filled([value % 65536 for value in values or []], VALUE, VALUES))}'


def say_unpack(file, wanted, skipped, rows, channels, room):
    stored = rules.read_module(file).patterns[wanted].stored[skipped:]
    unpacked, refusal = answered(rules.unpack, rows, channels, stored, room)
    unpacked_rows, cells = unpacked or (0, b'')
    return (refusal or accepted(unpacked_rows)) + sum_of_bytes(cells, room)


SAY = {'check': say_check, 'structures': say_structures, 'reader': say_reader, 'line': say_line, 'press': say_press, 'convert': say_convert,
       'tables': say_tables, 'ask': say_ask, 'deltas': say_deltas, 'values': say_values, 'unpack': say_unpack}


# The script


def table_calls(module):
    """Each table a number short, if it has a row; as many numbers as are needed; and all the memory."""
    needed = [len(table) for table in tables_of(module)]
    for short, size in enumerate(needed):
        if size:
            yield 'tables', *(room - (at == short) for at, room in enumerate(needed))
    yield 'tables', *needed
    yield 'tables', *TABLES


def ask_calls(file, module):
    """Each sample; a row whose data is in no file; a number past the rows; and files cut where data ends, and a byte before."""
    samples = module.samples()
    lent = rules.STRIDE * (len(samples) + 1) + 2
    for wanted in range(len(samples) + 2):
        yield 'ask', wanted, lent, len(file)
    for wanted, sample in list(enumerate(samples))[:4]:
        end = sample.data_place + len(sample.data)
        yield 'ask', wanted, lent, end
        yield 'ask', wanted, lent, end - 1


def delta_calls(wanted, sample):
    """Both ways at the sample's width with no number to spare; a number too little; the other width; and no width."""
    width = rules.width_of(sample.head)
    other = 24 - width
    size = len(sample.data)
    count = size * 8 // width
    yield 'deltas', wanted, width, count, width, size
    yield 'deltas', wanted, width, count + 3, other, 2 * size
    yield 'deltas', wanted, other, size, other, size + 5
    yield 'deltas', wanted, 12, size, width, size
    yield 'deltas', wanted, width, count, 12, size
    if size:
        yield 'deltas', wanted, width, count - 1, width, size
        yield 'deltas', wanted, width, count, width, size - 1


def value_calls(wanted, sample):
    """By the header's kind, as far as its H bytes tell: no number to spare, more room, and one too little; a byte of the data left out."""
    count = rules.little(sample.head, 0, 4) * 8 // rules.width_of(sample.head)
    size = sample.head_size
    yield 'values', wanted, count, 0, size
    yield 'values', wanted, count + 3, 0, size
    if count:
        yield 'values', wanted, count - 1, 0, size
        yield 'values', wanted, count, 1, size


def pattern_calls(channels, wanted, pattern):
    """No byte to spare, more room, and a byte too little; data out of step; other rows and channels."""
    rows, size = pattern.rows, len(pattern.cells)
    for room in (size, size + 9, size - 1):
        yield 'unpack', wanted, 0, rows, channels, room
    yield 'unpack', wanted, 1, rows, channels, size
    for other_rows, other_channels in ((rows + 1, channels), (rows, channels + 1), (rows, channels - 1), (0, channels)):
        yield 'unpack', wanted, 0, other_rows, other_channels, size


def shown(wanted):
    """How many calls are made on a pattern or sample: all, and from the tenth of a file on only the first."""
    return None if wanted < 9 else 1


def convert_calls(file, module):
    """To the other kind with no byte to spare; of a stripped file also a byte too little, and to its own kind."""
    other = not module.stripped
    length = len(rules.convert(file, other, rules.FILE_MOST))
    yield 'convert', int(other), length
    if module.stripped:
        yield 'convert', 0, length - 1
        yield 'convert', 1, len(file)


def valid_calls(file, module):
    length = len(rules.press(file, len(file)))
    yield from (('press', room) for room in (len(file) + 9, length, length - 1))
    yield from convert_calls(file, module)
    yield from table_calls(module)
    yield from ask_calls(file, module)
    for wanted, pattern in enumerate(module.patterns):
        yield from islice(pattern_calls(module.channels, wanted, pattern), shown(wanted))
    for wanted, sample in enumerate(module.samples()):
        yield from islice(value_calls(wanted, sample), shown(wanted))
        yield from islice(delta_calls(wanted, sample), shown(wanted))


def calls(file):
    yield 'check',
    yield 'structures',
    yield 'reader',
    yield 'line',
    module, refusal = answered(rules.read_module, file)
    if refusal:
        yield 'press', len(file)
        yield 'tables', *TABLES
        if len(file) >= 80 and rules.is_stripped(file):
            yield 'convert', 0, len(file) + 9
    else:
        yield from valid_calls(file, module)


def script(files):
    """Each line's words, and its answer."""
    for name, file in files.items():
        for call, *numbers in calls(file):
            yield ' '.join([name, call, *map(str, numbers)]), ':' + SAY[call](file, *numbers)


def refused(file):
    return answered(rules.read_module, file)[1]


def worked_files():
    valid, damaged = valid_files(), damaged_files()
    amiss = [name for name in valid if refused(valid[name])] + [name for name in damaged if not refused(damaged[name])]
    if amiss:
        raise SystemExit('neither valid nor damaged as they should be: ' + ', '.join(amiss))
    return {**bench_files(), **valid, **damaged}


def made():
    """Every file that is made, by its path."""
    files = worked_files()
    lines = list(script(files))
    texts = {FOLDER / 'stdin': ''.join(line + '\n' for line, _ in lines),
             FOLDER / 'stdout': ''.join(line + answer + '\n' for line, answer in lines)}
    if len(texts[FOLDER / 'stdin']) >= MEMORY:
        raise SystemExit('stdin is longer than the program reads')
    return {**{FOLDER / 'data' / name: file for name, file in files.items()},
            **{path: text.encode('ascii') for path, text in texts.items()}}


def standing():
    return [path for path in (*(FOLDER / 'data').glob('*'), FOLDER / 'stdin', FOLDER / 'stdout') if path.exists()]


def check(files):
    differing = sorted(str(path) for path in {*files, *standing()}
                       if path not in files or not path.exists() or path.read_bytes() != files[path])
    if differing:
        raise SystemExit('not what tests/pieces.py makes: ' + ', '.join(differing))
    print(f'{len(files)} files are what tests/pieces.py makes')


def write(files):
    for path in standing():
        path.unlink()
    (FOLDER / 'data').mkdir(exist_ok=True)
    for path, content in files.items():
        path.write_bytes(content)
    print(f'{len(files)} files written')


def main(arguments):
    if arguments not in ([], ['--check']):
        raise SystemExit(__doc__)
    files = made()
    if arguments:
        check(files)
    else:
        write(files)


if __name__ == '__main__':
    main(sys.argv[1:])
