/* The desk's functions for a host in C. They are proved to do what their definitions say, for every input.
 *
 * A slice is a pointer and a count of elements, in this order; a count of 0 may come with a null pointer.
 * The caller's duties, which no proof sees: each pointer is valid for its count and aligned for its type; a buffer that is
 * written (out, entries, labels) overlaps no other buffer of the call; nothing else touches the buffers during the call.
 *
 * Each function answers four numbers. After success number, place and operand are 0 and length counts what was written.
 * After a refusal number says why (enum desk_refusal), place where, operand which (from 1, 0 for none), and length is 0.
 * Afterwards
 *   - out holds the result in front and its former content behind it; after a refusal it is all zero;
 *   - entries and labels, which are work space, are all zero in every case.
 *
 * Inputs that come up again:
 *   sheet      the text of an opcode sheet: version=.., count=.., op=.. lines, each ended by LF
 *   bytes/ends the string table: the texts' bytes one behind the other, and where each one ends
 *   functions  triples of offset, size and name id, one for each function; offsets count from base
 *   area       the bytes in which the functions' bodies lie
 *
 * Threads: there is no state between calls, nothing is allocated and nothing global is written, so any number of threads may
 * call at once, each with its own buffers to write to; inputs may be shared.
 *
 * Stack and time stand at each function: the stack as measured up to the inputs' limits, the time of one call on a body of
 * 65,536 bytes under sheets of 4 and of 256 opcodes, with 16 to 65,536 strings (docs/SPEED.md has the figures). The code
 * touches each page of its stack in order, so that a thread with too little of it faults at its guard page.
 *
 * Platforms: x86-64 Linux with the System V calling convention and at least SSE2. The archive needs memcpy and memset and
 * nothing else; it is position independent and is tested with glibc and gcc.
 */
#ifndef DESK_H
#define DESK_H

#include <stdbool.h>
#include <stddef.h>
#include <stdint.h>

/* The version, which stands here alone: ./desk --version, desk_version() and the pkg-config file take it from these lines. */
#define DESK_VERSION "1.0.0"
#define DESK_VERSION_MAJOR 1
#define DESK_VERSION_MINOR 0
#define DESK_VERSION_PATCH 0

/* Limits of the inputs and results. Above one of the first five a call is refused with DESK_TOO_LARGE. */
#define DESK_MAX_BODY 65536          /* bytes of a body, given or to be made */
#define DESK_MAX_TEXT 1048576        /* bytes of a text to be assembled */
#define DESK_MAX_LISTING 1048576     /* bytes of a listing */
#define DESK_MAX_STRINGS 65536       /* strings of a table */
#define DESK_MAX_STRING_BYTES 1048576 /* bytes of all strings of a table */
#define DESK_MAX_LINE 4096           /* bytes of a line, read or listed, without its line end; above: DESK_LONG_LINE */
#define DESK_MAX_OPCODES 256         /* opcodes of a sheet, 0 to 255 */
#define DESK_MAX_OPERANDS 8          /* operands of an instruction */
#define DESK_MAX_NAME 48             /* bytes of an opcode's name */
#define DESK_MAX_INSTRUCTION 65      /* bytes of an instruction: its opcode and eight operands of eight bytes */
#define DESK_MAX_SHEET 35247         /* bytes of the longest sheet that is well-formed: 256 opcodes, longest names and types */
#define DESK_RECORD_WORDS 20         /* words of a record: offset, opcode, length, operand count, eight pairs of kind and bits */

/* Space that always suffices: with it no call is refused with DESK_SHORT. Some input needs all of it, but of DESK_CARRY_BYTES only
   nearly so. n may be evaluated twice. */
#define DESK_LEAST(a, b) ((a) < (b) ? (a) : (b))

/* desk_decode, words of out for a body of n bytes: an instruction takes a byte or more, so there are at most n records.
   desk_decode_function: n is the function's size, or the area's. */
#define DESK_DECODE_WORDS(n) (DESK_LEAST(n, DESK_MAX_BODY) * DESK_RECORD_WORDS)

/* desk_encode, bytes of out for n words: each record becomes an instruction. */
#define DESK_ENCODE_BYTES(n) DESK_LEAST((n) / DESK_RECORD_WORDS * DESK_MAX_INSTRUCTION, DESK_MAX_BODY)

/* desk_list, desk_list_function, desk_list_module, bytes of out: a longer listing is DESK_TOO_LARGE. */
#define DESK_LIST_BYTES DESK_MAX_LISTING

/* The same, label entries for a body of n bytes, without labels none: an instruction gives a label for each address it holds,
   which takes a byte or more, and one for its end, so at most as many as it has bytes. A function: n is its size, or the area's;
   a module: n is the largest size, or the area's. */
#define DESK_LIST_ENTRIES(n) DESK_LEAST(n, DESK_MAX_BODY)

/* desk_assemble, bytes of out: a longer result is DESK_TOO_LARGE. */
#define DESK_ASSEMBLE_BYTES DESK_MAX_BODY

/* The same, label entries for a text of n bytes: a label line takes two bytes and its end, the instruction that takes it another
   two, the last of them without a line end. Where that is more than DESK_MAX_BODY the result is too long in any case, but with
   all entries lent no label is searched in the text. */
#define DESK_ASSEMBLE_LABELS(n) ((DESK_LEAST(n, DESK_MAX_TEXT) + 1) / 5)

/* desk_carry, bytes of out for a body of n bytes: an operand of one byte becomes one of four at most, and no other grows more. */
#define DESK_CARRY_BYTES(n) (DESK_LEAST(n, DESK_MAX_BODY / 4) * 4)

/* The same, label entries: one for each instruction. */
#define DESK_CARRY_LABELS(n) DESK_LEAST(n, DESK_MAX_BODY)

/* Stack for a thread that calls any of the functions: the deepest call, desk_assemble, was measured at 1,021,583 bytes. */
#define DESK_STACK 1048576

/* Stack for one that lists, where DESK_LIST_ENTRIES are lent or no label lies past the body: 83,999 bytes were measured. Where
   fewer are lent and labels that are shown lie past the body it is too little: 355,151 were measured. */
#define DESK_LIST_STACK 131072

#ifdef __cplusplus
extern "C" {
#endif

/* The refusals; desk_explain has a text for each. */
enum desk_refusal {
    DESK_OK = 0,
    DESK_MALFORMED = 1, /* place: its line, from 1 */
    DESK_BAD_BYTE = 2, /* place: line */
    DESK_LONG_LINE = 3, /* place: line, or the instruction's offset; a function's number for its banner */
    DESK_UNKNOWN_NAME = 4, /* place: line; the instruction, from 0, when carrying */
    DESK_OPERAND_COUNT = 5, /* place: line, or the record or instruction, from 0 */
    DESK_BAD_REGISTER = 6, /* place: line */
    DESK_BAD_ADDRESS = 7, /* place: line; the instruction, from 0, when carrying */
    DESK_TOO_FAR = 8, /* place: line; the instruction, from 0, when carrying */
    DESK_OPEN_QUOTE = 9, /* place: line */
    DESK_UNKNOWN_TEXT = 10, /* place: line; the instruction, from 0, when carrying */
    DESK_BAD_NUMBER = 11, /* place: line */
    DESK_BAD_DOUBLE = 12, /* place: line */
    DESK_BEYOND = 13, /* place: the instruction's offset, or the record */
    DESK_CUT = 14, /* place: the instruction's offset */
    DESK_BAD_RECORD = 15, /* place: the record, from 0 */
    DESK_NOT_CARRIED = 16, /* place: the instruction, from 0 */
    DESK_BAD_STRING = 17, /* place: the string, from 0 */
    DESK_TOO_LARGE = 18, /* place: 0 */
    DESK_SHORT = 19, /* place: 0 */
    DESK_NO_FUNCTION = 20, /* place: the function, from 0 */
};
#define DESK_REFUSALS 20 /* the largest number */

struct desk_answer {
    uint64_t number;
    uint64_t place;
    uint64_t operand;
    uint64_t length;
};

/* The version, the commit, the kit that proved it and the sum over the definitions, all of the tree that this library was built
   from: a line NAME=VALUE for each, ended by LF. ./desk --version prints the same of its own tree. */
const char *desk_version(void);

/* What is wrong and what to do, for the number of an answer. Never null: numbers that are no refusal have a text that says so. */
const char *desk_explain(uint64_t number);

/* Decodes a body into records of 20 words. length counts the records.
   Stack 20 KiB, time 0.1 to 0.2 ms. */
struct desk_answer desk_decode(const uint8_t *sheet, size_t sheet_len, const uint8_t *body, size_t body_len,
                               uint64_t *out, size_t out_len);

/* The same for function number id of an area.
   Stack 20 KiB, time 0.1 to 0.2 ms. */
struct desk_answer desk_decode_function(const uint8_t *sheet, size_t sheet_len, const uint32_t *functions,
                                        size_t functions_len, const uint8_t *area, size_t area_len, uint32_t base,
                                        size_t id, uint64_t *out, size_t out_len);

/* Encodes records of 20 words into a body. length counts the bytes.
   Stack 14 KiB, time 0.1 to 0.2 ms. */
struct desk_answer desk_encode(const uint8_t *sheet, size_t sheet_len, const uint64_t *words, size_t words_len,
                               uint8_t *out, size_t out_len);

/* Lists a body, with offsets, labels and texts shown or not. length counts the bytes of the text. One label entry is
   needed for each different label offset, none where labels are not shown.
   Stack 83 KiB, time 0.6 to 1.0 ms; up to 347 KiB and 0.2 s where labels that are shown lie past the body and fewer than
   DESK_LIST_ENTRIES are lent. */
struct desk_answer desk_list(const uint8_t *sheet, size_t sheet_len, const uint8_t *bytes, size_t bytes_len,
                             const uint32_t *ends, size_t ends_len, const uint8_t *body, size_t body_len, bool offsets,
                             bool labels, bool texts, uint8_t *out, size_t out_len, uint32_t *entries,
                             size_t entries_len);

/* The same for function number id of an area.
   Stack 83 KiB, time 0.6 to 1.0 ms; up to 347 KiB and 0.2 s where labels that are shown lie past the body and fewer than
   DESK_LIST_ENTRIES are lent. */
struct desk_answer desk_list_function(const uint8_t *sheet, size_t sheet_len, const uint8_t *bytes, size_t bytes_len,
                                      const uint32_t *ends, size_t ends_len, const uint32_t *functions,
                                      size_t functions_len, const uint8_t *area, size_t area_len, uint32_t base,
                                      size_t id, bool offsets, bool labels, bool texts, uint8_t *out, size_t out_len,
                                      uint32_t *entries, size_t entries_len);

/* Lists all functions of an area, each under a line that names it. Label entries are needed for one function at a time:
   as many as the function with the most different label offsets has.
   Stack 83 KiB, time as for listing each function; up to 347 KiB where labels that are shown lie past a body and fewer than
   DESK_LIST_ENTRIES are lent. */
struct desk_answer desk_list_module(const uint8_t *sheet, size_t sheet_len, const uint8_t *bytes, size_t bytes_len,
                                    const uint32_t *ends, size_t ends_len, const uint32_t *functions,
                                    size_t functions_len, const uint8_t *area, size_t area_len, uint32_t base,
                                    bool offsets, bool labels, bool texts, uint8_t *out, size_t out_len,
                                    uint32_t *entries, size_t entries_len);

/* Assembles a text into a body. length counts the bytes, and a refusal's place is the text's line. One label entry of
   three words is needed for each label line that an instruction takes.
   Stack 998 KiB, time 3.5 to 5.8 ms. Where fewer entries are lent than a text has labels with a number past 32 bits, which no
   listing has, its names are read a second time to find them, so that it takes up to half as long again. */
struct desk_answer desk_assemble(const uint8_t *sheet, size_t sheet_len, const uint8_t *bytes, size_t bytes_len,
                                 const uint32_t *ends, size_t ends_len, const uint8_t *text, size_t text_len,
                                 uint8_t *out, size_t out_len, uint32_t (*labels)[3], size_t labels_len);

/* Carries a body from the first sheet and string table to the second (sheet2, bytes2, ends2): each instruction gets the second
   sheet's opcode of its name, and keeps its meaning. length counts the bytes, and a refusal's place is the instruction's index,
   from 0; for 13 and 14 its byte offset. One label entry of three words is needed for each instruction.
   Stack 613 KiB, time 0.3 to 2.9 ms. */
struct desk_answer desk_carry(const uint8_t *sheet, size_t sheet_len, const uint8_t *bytes, size_t bytes_len,
                              const uint32_t *ends, size_t ends_len, const uint8_t *sheet2, size_t sheet2_len,
                              const uint8_t *bytes2, size_t bytes2_len, const uint32_t *ends2, size_t ends2_len,
                              const uint8_t *body, size_t body_len, uint8_t *out, size_t out_len, uint32_t (*labels)[3],
                              size_t labels_len);

#ifdef __cplusplus
}
#endif

#endif
