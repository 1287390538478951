"""What an opcode sheet of document 01 can say, and its text: for the converters beside this file."""
import json
import os
import re
import sys
from collections import namedtuple

TYPES = ('Reg8', 'Reg32', 'UInt8', 'UInt16', 'UInt32', 'UInt8S', 'UInt16S', 'UInt32S', 'Addr8', 'Addr32', 'Imm32', 'Double')
LARGEST_VERSION = 2**32 - 1
LARGEST_OPCODE = 255
MOST_OPERANDS = 8
LONGEST_NAME = 48
LONGEST_SHOWN = 80

# An opcode, and where its source has it.
Op = namedtuple('Op', 'code name jump types place')


class Fault(Exception):
    """What is wrong with an input, a line for each fault."""


def shown(value):
    """A value of the input in a message: on one line, in ASCII, and not long."""
    text = json.dumps(value)
    return text if len(text) <= LONGEST_SHOWN else text[:LONGEST_SHOWN] + '..'


def name_fault(name):
    """What keeps a name out of a sheet, or None."""
    if not name:
        return 'the name is empty'
    if len(name) > LONGEST_NAME:
        return f'the name {shown(name)} has {len(name)} characters, and a sheet\'s names have at most {LONGEST_NAME}'
    if not re.fullmatch('[A-Za-z0-9_]+', name):
        return f'the name {shown(name)} has other characters than letters, digits and underscores'
    if not 'A' <= name[0] <= 'Z':
        return f'the name {shown(name)} does not open with an upper-case letter'
    if name.startswith('Function'):
        return f'the name {shown(name)} opens with Function, and the assembler skips such lines'
    return None


def faults(ops):
    """What a sheet cannot say of opcodes: each with the field (as the JSON calls it) and a sentence."""
    names = {}
    for op in ops:
        if not 0 <= op.code <= LARGEST_OPCODE:
            yield op, 'Opcode', f'{op.code} is not in 0 to {LARGEST_OPCODE}'
        fault = name_fault(op.name)
        if fault:
            yield op, 'Name', fault
        elif op.name in names:
            yield op, 'Name', f'the name {shown(op.name)} is that of opcode {names[op.name]} too'
        names.setdefault(op.name, op.code)
        if len(op.types) > MOST_OPERANDS:
            yield op, 'OperandTypes', f'{len(op.types)} operands, and a sheet\'s opcodes have at most {MOST_OPERANDS}'


def text(version, ops):
    """The sheet, of opcodes that it can say, in rising order."""
    lines = [f'version={version}', f'count={len(ops)}']
    lines += [f'op={op.code} name={op.name} jump={int(op.jump)} types={",".join(op.types) or "-"}' for op in ops]
    return '\n'.join(lines) + '\n'


def read(file):
    """The bytes of a file, or of standard input for '-'."""
    if file == '-':
        return sys.stdin.buffer.read()
    with open(file, 'rb') as f:
        return f.read()


def complain(file, message):
    """Each line of a message on standard error, with the program and the file in front."""
    program = sys.argv[0].rpartition('/')[2]
    name = 'standard input' if file == '-' else file
    for line in str(message).split('\n'):
        print(f'{program}: {name}: {line}', file=sys.stderr)


def convert(file, of_bytes, write):
    """Writes the sheet that a file's bytes give. Status 1 where there is none, 2 where a file cannot be read or written."""
    try:
        write(of_bytes(read(file)))
    except Fault as fault:
        complain(file, fault)
        return 1
    except OSError as fault:
        complain(fault.filename or file, fault.strerror)
        return 2
    return 0


def print_out(sheet):
    # Not by sys.stdout, which at the end of the program tries once more what could not be written, with a status of its own.
    data = sheet.encode('ascii')
    while data:
        data = data[os.write(1, data):]
