"""Document 01's jobs, trials and refusals through the Python wrapper, random bodies, and damaged inputs."""
import os
import random
import re
import struct
import textwrap
import threading
import unittest

import desk
from desk import Area, Edition, Record, Refused, Show, Strings

ROOT = os.path.join(os.path.dirname(os.path.abspath(__file__)), '..', '..')
SHEET = b'''version=1
count=4
op=0 name=LoadByte jump=0 types=Reg8,UInt8
op=1 name=Jmp jump=1 types=Addr8
op=2 name=LoadText jump=0 types=Reg8,UInt16S
op=4 name=Ret jump=0 types=Reg8
'''
DOCUMENT = Edition(SHEET, Strings(['a,b', 'é']))
BODY = bytes.fromhex('0001070106020100000401')


def read(*path):
    with open(os.path.join(ROOT, *path), encoding='utf-8') as f:
        return f.read()


LISTING = read('examples', 'list.out').encode()


class Case(unittest.TestCase):
    def refused(self, number, place, operand, function, *arguments):
        with self.assertRaises(Refused) as caught:
            function(*arguments)
        e = caught.exception
        self.assertEqual((e.number, e.place, e.operand), (number, place, operand))


class Document(Case):
    def test_list_and_assemble(self):
        self.assertEqual(desk.list_body(DOCUMENT, BODY), LISTING)
        self.assertEqual(desk.assemble(DOCUMENT, LISTING), BODY)
        plain = desk.list_body(DOCUMENT, BODY, Show(False, False, False))
        self.assertEqual(plain, b'LoadByte r1, 7\nJmp L9\nLoadText r1, 0\nRet r1\n')

    def test_carry(self):
        sheet, strings = SHEET.replace(b'UInt16S', b'UInt32S'), Strings(['x', 'a,b'])
        carried = bytes.fromhex('00010701080201010000000401')
        self.assertEqual(desk.carry(DOCUMENT, Edition(sheet, strings), BODY), carried)
        self.refused(10, 2, 2, desk.carry, DOCUMENT, Edition(sheet, Strings(['x'])), BODY)
        self.refused(4, 0, 0, desk.carry, DOCUMENT, Edition(sheet.replace(b'LoadByte', b'StoreByte'), strings), BODY)
        self.refused(16, 0, 1, desk.carry, DOCUMENT, Edition(sheet.replace(b'Reg8,UInt8\n', b'UInt8,UInt8\n'), strings), BODY)

    def test_decode_and_encode(self):
        records = desk.decode(SHEET, BODY)
        self.assertEqual(records[1], Record(3, 1, 2, ((3, 6),)))
        self.assertEqual([r.offset for r in records], [0, 3, 5, 9])
        self.assertEqual(desk.encode(SHEET, records), BODY)
        self.refused(15, 0, 2, desk.encode, SHEET, [Record(0, 2, 4, ((0, 1), (2, 65_536)))])
        self.refused(15, 1, 0, desk.encode, SHEET, [records[0], Record(0, 2, 4, ((0, 1),) * 9)])
        self.refused(13, 0, 0, desk.encode, SHEET, [Record(0, 5, 1, ())])
        self.refused(5, 0, 0, desk.encode, SHEET, [Record(0, 4, 1, ())])
        with self.assertRaises(OverflowError):
            desk.encode(SHEET, [Record(-1, 4, 1, ())])

    def test_area(self):
        area = Area([(100, 11, 0), (111, 2, 7)], BODY + b'\4\t', 100)
        self.assertEqual(desk.list_function(DOCUMENT, area, 0), LISTING)
        self.assertEqual(desk.decode_function(SHEET, area, 1), desk.decode(SHEET, b'\4\t'))
        indented = b''.join(b'  ' + line + b'\n' for line in LISTING.splitlines())
        module = b'function 0 ("a,b"):\n' + indented + b'\nfunction 1:\n  0000  Ret r9\n\n'
        self.assertEqual(desk.list_module(DOCUMENT, area), module)
        self.refused(20, 2, 0, desk.list_function, DOCUMENT, area, 2)
        self.refused(20, 0, 0, desk.decode_function, SHEET, area._replace(base=101), 0)
        for wrong in (-1, 1 << 64):
            with self.assertRaises(OverflowError):
                desk.list_function(DOCUMENT, area, wrong)
        with self.assertRaises(OverflowError):
            desk.list_module(DOCUMENT, area._replace(base=1 << 32))

    def test_trials(self):
        self.assertEqual(desk.list_body(DOCUMENT, b''), b'')
        self.assertEqual(desk.assemble(DOCUMENT, ''), b'')
        self.assertEqual(desk.list_body(DOCUMENT, b'\3'), b'0000  <invalid>\n')
        self.refused(13, 0, 0, desk.list_body, DOCUMENT, b'\5')
        self.refused(14, 0, 0, desk.list_body, DOCUMENT, b'\0\1')
        for text, body in (('LoadByte r256, 7', '000007'), ('Jmp L127', '017f'), ('Ret r+1', '0401'), ('Ret r1,', '0401')):
            self.assertEqual(desk.assemble(DOCUMENT, text).hex(), body)
        for text, *refusal in (('Jmp L128', 8, 1, 1), ('Ret r-1', 6, 1, 1), ('LoadText r1, "zz"', 10, 1, 2), ('Ret r1,,', 5, 1, 0),
                               ('Ret x\nNone r1', 4, 2, 0), ('Ret r1 // é', 2, 1, 0), (' ' * 4_097, 3, 1, 0)):
            self.refused(*refusal, desk.assemble, DOCUMENT, text)

    def test_refusals_of_inputs(self):
        self.refused(1, 2, 0, desk.decode, b'version=1\ncount=0\n', b'')
        self.refused(18, 0, 0, desk.list_body, DOCUMENT, b'\4' * (desk.MAX_BODY + 1))
        self.refused(18, 0, 0, desk.assemble, DOCUMENT, ' \n' * (desk.MAX_TEXT // 2 + 1))
        self.refused(17, 0, 0, desk.list_body, Edition(SHEET, Strings([b'\xff'])), BODY)

    def test_largest_results(self):
        ret = Edition(b'version=1\ncount=1\nop=0 name=Ret jump=0 types=-\n')
        body = bytes(desk.MAX_BODY)
        self.assertEqual(len(desk.decode(ret.sheet, body)), desk.MAX_BODY)
        listing = desk.list_body(ret, body, Show(offsets=False))
        self.assertEqual(listing.count(b'L'), desk.MAX_BODY - 1)
        self.assertEqual(desk.assemble(ret, listing), body)
        self.assertEqual(desk.assemble(ret, b'L:\nRet\n' * desk.MAX_BODY), body)
        self.assertEqual(desk.carry(ret, ret, body), body)

    def test_texts(self):
        with self.assertRaises(Refused) as caught:
            desk.decode(SHEET, b'\0\1\7\5')
        row = re.search('^13\t.*$', read('host', 'refusals.tsv'), re.M).group().split('\t')
        self.assertEqual(str(caught.exception), f'refused=13 place=3 operand=0: {row[2]}; {row[4]}')
        self.assertRegex(desk.version(), r'\Aversion=.*\ncommit=.*\nkit=.*\ndefinitions=[0-9a-f]{64}\n\Z')

    def test_limits_of_the_header(self):
        for name in ('MAX_BODY', 'MAX_TEXT', 'MAX_LISTING', 'MAX_INSTRUCTION', 'RECORD_WORDS'):
            found = re.search(rf'^#define DESK_{name} (\d+)', read('include', 'desk.h'), re.M).group(1)
            self.assertEqual(int(found), getattr(desk, name))

    def test_example_of_the_readme(self):
        example = re.search('(?:^    .*\n)*^    import desk\n(?:^    .*\n)*', read('README.md'), re.M).group()
        self.assertEqual(example.count('assert'), 2)
        exec(textwrap.dedent(example), {})


TYPES = {'Reg8': 1, 'Reg32': 4, 'UInt8': 1, 'UInt16': 2, 'UInt32': 4, 'UInt8S': 1, 'UInt16S': 2, 'UInt32S': 4, 'Addr8': 1,
         'Addr32': 4, 'Imm32': 4, 'Double': 8}
TEXTS = Strings(['a', 'b, c', '', '// d', 'Ret r1', 'L9:'])


def make(seed):
    """A sheet without gaps and a body that survives a listing: doubles are whole numbers, no target is negative."""
    r = random.Random(seed)
    ops = [[r.choice(list(TYPES)) for _ in range(r.randrange(5))] for _ in range(r.randrange(1, 20))]
    lines = [f'op={i} name=Op{i} jump={r.randrange(2)} types={",".join(types) or "-"}\n' for i, types in enumerate(ops)]
    body = b''
    for _ in range(r.randrange(40)):
        code, offset = r.randrange(len(ops)), len(body)
        body += bytes([code])
        for name in ops[code]:
            if name == 'Double':
                body += struct.pack('<d', r.randrange(-10**6, 10**6))
            elif name == 'Addr8':
                body += bytes([r.randrange(128)])
            elif name == 'Addr32':
                body += struct.pack('<i', r.randrange(70_000) - offset)
            else:
                body += r.randbytes(TYPES[name])
    return r, Edition(f'version=1\ncount={len(ops)}\n{"".join(lines)}'.encode(), TEXTS), body


def damaged(r, data):
    data = bytearray(data)
    for _ in range(r.randrange(1, 4)):
        at = r.randrange(len(data) + 1)
        data[at:at + r.randrange(2)] = r.randbytes(r.randrange(3))
    return bytes(data)


def answer(function, *arguments):
    try:
        return function(*arguments)
    except Refused as e:
        return e.number


class Random(Case):
    def test_round_trips(self):
        carried = 0
        for seed in range(1_500):
            _, edition, body = make(seed)
            records = desk.decode(edition.sheet, body)
            self.assertEqual(desk.encode(edition.sheet, records), body, seed)
            self.assertEqual(desk.assemble(edition, desk.list_body(edition, body)), body, seed)
            found = answer(desk.carry, edition, edition, body)
            self.assertIn(found, (body, 7, 16), seed)
            carried += found == body
        self.assertGreater(carried, 30)

    def test_damage(self):
        refused = 0
        for seed in range(1_500):
            r, edition, body = make(seed)
            listing = desk.list_body(edition, body)
            bad_body, bad = damaged(r, body), Edition(damaged(r, edition.sheet), Strings([r.randbytes(3)]))
            found = [answer(desk.list_body, edition, bad_body), answer(desk.list_body, bad, body),
                     answer(desk.assemble, edition, damaged(r, listing)), answer(desk.assemble, bad, listing),
                     answer(desk.carry, edition, bad, bad_body), answer(desk.decode, bad.sheet, body)]
            numbers = [n for n in found if isinstance(n, int)]
            self.assertTrue(all(1 <= n <= 18 for n in numbers), (seed, numbers))
            refused += len(numbers)
            records = answer(desk.decode, edition.sheet, bad_body)
            if not isinstance(records, int):
                self.assertEqual(desk.encode(edition.sheet, records), bad_body, seed)
        self.assertGreater(refused, 1_500)

    def test_threads(self):
        def run(into):
            for seed in range(200):
                _, edition, body = make(seed)
                into.append((desk.list_body(edition, body), answer(desk.carry, edition, edition, body)))

        results = [[] for _ in range(8)]
        threads = [threading.Thread(target=run, args=(into,)) for into in results]
        for thread in threads:
            thread.start()
        for thread in threads:
            thread.join()
        alone = []
        run(alone)
        self.assertEqual(results, [alone] * 8)


if __name__ == '__main__':
    unittest.main()
