"""The desk for Python: lists, assembles and carries function bodies of Hermes bytecode, by functions that are proved.

Each operation takes bytes and gives its result, or raises Refused. It lends the C function the space that always suffices, as
include/desk.h derives it, so that 19, too little space, never comes back. Calls keep no state and may run on any number of
threads; each needs up to 860 KiB of its thread's stack (threading.stack_size).

The shared library is libdesk.so of the folder that DESK_LIB names, of target/host-kit where `make` leaves it in this
repository, or else the system's.
"""
import ctypes
import os
from array import array
from itertools import accumulate
from typing import Iterable, List, NamedTuple, Sequence, Tuple, Union

MAX_BODY = 65_536
MAX_TEXT = 1_048_576
MAX_LISTING = 1_048_576
MAX_INSTRUCTION = 65
RECORD_WORDS = 20


class _Answer(ctypes.Structure):
    _fields_ = [(name, ctypes.c_uint64) for name in ('number', 'place', 'operand', 'length')]


_WORD = {1: ctypes.c_uint8, 4: ctypes.c_uint32, 8: ctypes.c_uint64}


def _load():
    here = os.path.dirname(os.path.abspath(__file__))
    folder = os.environ.get('DESK_LIB') or os.path.join(here, '..', '..', 'target', 'host-kit')
    beside = os.path.join(folder, 'libdesk.so')
    library = ctypes.CDLL(beside if 'DESK_LIB' in os.environ or os.path.exists(beside) else 'libdesk.so.1')
    slice_of = {kind: [ctypes.POINTER(word), ctypes.c_size_t] for kind, word in _WORD.items()}
    text, words, functions = slice_of[1], slice_of[4], slice_of[4] + slice_of[1] + [ctypes.c_uint32]
    table, show = text + words, [ctypes.c_bool] * 3
    parameters = {
        'decode': text + text + slice_of[8],
        'decode_function': text + functions + [ctypes.c_size_t] + slice_of[8],
        'encode': text + slice_of[8] + text,
        'list': text + table + text + show + text + words,
        'list_function': text + table + functions + [ctypes.c_size_t] + show + text + words,
        'list_module': text + table + functions + show + text + words,
        'assemble': text + table + text + text + words,
        'carry': text + table + text + table + text + text + words,
    }
    for name, types in parameters.items():
        function = getattr(library, 'desk_' + name)
        function.argtypes, function.restype = types, _Answer
    library.desk_explain.argtypes, library.desk_explain.restype = [ctypes.c_uint64], ctypes.c_char_p
    library.desk_version.argtypes, library.desk_version.restype = [], ctypes.c_char_p
    return library


_desk = _load()


def version() -> str:
    """Version, commit, kit and the sum over the definitions of the tree that the library was built from, a line for each."""
    return _desk.desk_version().decode('ascii')


class Refused(Exception):
    """Why nothing was made: document 01's number, the place that it counts, and the operand, from 1, or 0 for none."""

    def __init__(self, number: int, place: int, operand: int):
        super().__init__(number, place, operand)
        self.number, self.place, self.operand = number, place, operand

    def explain(self) -> str:
        """What is wrong and what to do."""
        return _desk.desk_explain(self.number).decode('ascii')

    def __str__(self):
        return f'refused={self.number} place={self.place} operand={self.operand}: {self.explain()}'


class Strings:
    """A string table: the texts' bytes one behind the other, and where each one ends."""

    def __init__(self, texts: Iterable[Union[str, bytes]] = ()):
        encoded = [text.encode('utf-8') if isinstance(text, str) else bytes(text) for text in texts]
        self.bytes = b''.join(encoded)
        self.ends = list(accumulate(len(text) for text in encoded))


class Edition(NamedTuple):
    """An edition: the text of its opcode sheet, and the strings."""
    sheet: bytes
    strings: Strings = Strings()


class Area(NamedTuple):
    """Functions of an area: triples of offset, size and name id, offsets counted from base, and the area's bytes."""
    functions: Sequence[Tuple[int, int, int]]
    bytes: bytes
    base: int = 0


class Show(NamedTuple):
    """What a listing shows; document 01's default."""
    offsets: bool = True
    labels: bool = True
    texts: bool = True


class Record(NamedTuple):
    """A decoded instruction. An operand is a pair of kind (0 U8, 1 U16, 2 U32, 3 I8, 4 I32, 5 F64) and the value's bits."""
    offset: int
    opcode: int
    length: int
    operands: Tuple[Tuple[int, int], ...]


def decode(sheet: bytes, body: bytes) -> List[Record]:
    """Decodes a body."""
    out = _room(8, min(len(body), MAX_BODY) * RECORD_WORDS)
    return _records(_desk.desk_decode(*_in(1, sheet), *_in(1, body), *out), out)


def decode_function(sheet: bytes, area: Area, number: int) -> List[Record]:
    """Decodes a function of an area."""
    out = _room(8, min(len(area.bytes), MAX_BODY) * RECORD_WORDS)
    return _records(_desk.desk_decode_function(*_in(1, sheet), *_area(area), _fits(number, 64), *out), out)


def encode(sheet: bytes, records: Sequence[Record]) -> bytes:
    """Encodes records into a body. A record with more than eight operands is malformed, 15."""
    words = array('Q')
    for index, record in enumerate(records):
        if len(record.operands) > 8:
            raise Refused(15, index, 0)
        flat = [word for pair in record.operands for word in pair]
        words.extend([record.offset, record.opcode, record.length, len(record.operands)] + flat + [0] * (16 - len(flat)))
    out = _room(1, min(len(records) * MAX_INSTRUCTION, MAX_BODY))
    return _bytes(_desk.desk_encode(*_in(1, sheet), *_in(8, words), *out), out)


def list_body(edition: Edition, body: bytes, show: Show = Show()) -> bytes:
    """Lists a body."""
    out, entries = _listing(len(body), show)
    return _bytes(_desk.desk_list(*_edition(edition), *_in(1, body), *show, *out, *entries), out)


def list_function(edition: Edition, area: Area, number: int, show: Show = Show()) -> bytes:
    """Lists a function of an area."""
    out, entries = _listing(len(area.bytes), show)
    answer = _desk.desk_list_function(*_edition(edition), *_area(area), _fits(number, 64), *show, *out, *entries)
    return _bytes(answer, out)


def list_module(edition: Edition, area: Area, show: Show = Show()) -> bytes:
    """Lists all functions of an area, each under a line that names it."""
    out, entries = _listing(len(area.bytes), show)
    return _bytes(_desk.desk_list_module(*_edition(edition), *_area(area), *show, *out, *entries), out)


def assemble(edition: Edition, text: Union[str, bytes]) -> bytes:
    """Assembles a text into a body. A refusal's place is the text's line, from 1."""
    text = text.encode('utf-8') if isinstance(text, str) else text
    out, labels = _room(1, MAX_BODY), _entries((min(len(text), MAX_TEXT) + 1) // 5)
    return _bytes(_desk.desk_assemble(*_edition(edition), *_in(1, text), *out, *labels), out)


def carry(first: Edition, second: Edition, body: bytes) -> bytes:
    """Carries a body to another edition. A refusal's place is the instruction's index, from 0; for 13 and 14 its offset."""
    out, labels = _room(1, min(len(body), MAX_BODY // 4) * 4), _entries(min(len(body), MAX_BODY))
    return _bytes(_desk.desk_carry(*_edition(first), *_edition(second), *_in(1, body), *out, *labels), out)


def _in(size, values):
    """A slice to be read: bytes, or words of 4 or 8 bytes. It is a copy, so that nothing else touches it during the call."""
    if size == 1:
        return (_WORD[1] * len(values)).from_buffer_copy(values), len(values)
    words = (_WORD[size] * len(values)).from_buffer_copy(array({4: 'I', 8: 'Q'}[size], values))
    return words, len(values)


def _room(size, count):
    """A slice to be written."""
    return (_WORD[size] * count)(), count


def _entries(count):
    """Label entries of three words each; their count is of entries."""
    return (_WORD[4] * (3 * count))(), count


def _listing(body, show):
    """Room for a listing, and label entries: an instruction gives at most as many labels as it has bytes."""
    return _room(1, MAX_LISTING), _room(4, min(body, MAX_BODY) if show.labels else 0)


def _edition(edition):
    return *_in(1, edition.sheet), *_in(1, edition.strings.bytes), *_in(4, edition.strings.ends)


def _area(area):
    return *_in(4, [word for triple in area.functions for word in triple]), *_in(1, area.bytes), _fits(area.base, 32)


def _fits(number, bits):
    """The number, which ctypes would cut to its low bits without a word."""
    if not 0 <= number < 1 << bits:
        raise OverflowError(f'{number} does not fit {bits} bits')
    return number


def _length(answer):
    if answer.number != 0:
        raise Refused(answer.number, answer.place, answer.operand)
    return answer.length


def _bytes(answer, out):
    return ctypes.string_at(out[0], _length(answer))


def _records(answer, out):
    found = []
    for at in range(0, _length(answer) * RECORD_WORDS, RECORD_WORDS):
        offset, opcode, length, count, *pairs = out[0][at:at + RECORD_WORDS]
        found.append(Record(offset, opcode, length, tuple(zip(pairs[0:2 * count:2], pairs[1:2 * count:2]))))
    return found
