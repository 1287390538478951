/* A host of the desk: lists document 01's body and prints the listing, assembles that listing, which has to give the body
 * back, carries the body to a second sheet and prints the result, then has a damaged body refused and prints why.
 * tests/host builds it against the installed libraries, static and shared, and compares what it prints. */
#include <desk.h>
#include <stdio.h>
#include <string.h>

static const char sheet[] = "version=1\n"
                            "count=4\n"
                            "op=0 name=LoadByte jump=0 types=Reg8,UInt8\n"
                            "op=1 name=Jmp jump=1 types=Addr8\n"
                            "op=2 name=LoadText jump=0 types=Reg8,UInt16S\n"
                            "op=4 name=Ret jump=0 types=Reg8\n";
static const uint8_t bytes[] = {0x61, 0x2c, 0x62, 0xc3, 0xa9}; /* "a,b" and "é" */
static const uint32_t ends[] = {3, 5};
/* The second edition: LoadText has a longer id, and the texts are "x" and "a,b". */
static const char sheet2[] = "version=1\n"
                             "count=4\n"
                             "op=0 name=LoadByte jump=0 types=Reg8,UInt8\n"
                             "op=1 name=Jmp jump=1 types=Addr8\n"
                             "op=2 name=LoadText jump=0 types=Reg8,UInt32S\n"
                             "op=4 name=Ret jump=0 types=Reg8\n";
static const uint8_t bytes2[] = {0x78, 0x61, 0x2c, 0x62};
static const uint32_t ends2[] = {1, 4};
enum { BODY = 11 };
static const uint8_t body[BODY] = {0x00, 0x01, 0x07, 0x01, 0x06, 0x02, 0x01, 0x00, 0x00, 0x04, 0x01};
/* Its second instruction has opcode 5, and the sheet ends at 4. */
static const uint8_t damaged[] = {0x00, 0x01, 0x07, 0x05};

/* Space for whatever the calls below can answer. */
static uint8_t listing[DESK_LIST_BYTES], again[DESK_ASSEMBLE_BYTES], carried[DESK_CARRY_BYTES(BODY)];
static uint32_t entries[DESK_LIST_ENTRIES(BODY)];
static uint32_t labels[DESK_ASSEMBLE_LABELS(DESK_MAX_TEXT)][3], carried_labels[DESK_CARRY_LABELS(BODY)][3];
static uint64_t records[DESK_DECODE_WORDS(sizeof damaged)];

static int refused(struct desk_answer a)
{
    if (a.number == DESK_OK)
        return 0;
    printf("refused=%u place=%u operand=%u\n", (unsigned)a.number, (unsigned)a.place, (unsigned)a.operand);
    printf("%s\n", desk_explain(a.number));
    return 1;
}

int main(void)
{
    struct desk_answer a = desk_list((const uint8_t *)sheet, strlen(sheet), bytes, sizeof bytes, ends, 2, body, BODY, true, true,
                                     true, listing, sizeof listing, entries, DESK_LIST_ENTRIES(BODY));
    if (refused(a) || fwrite(listing, 1, a.length, stdout) != a.length)
        return 1;

    struct desk_answer b =
        desk_assemble((const uint8_t *)sheet, strlen(sheet), bytes, sizeof bytes, ends, 2, listing, a.length, again, sizeof again,
                      labels, DESK_ASSEMBLE_LABELS(a.length));
    if (refused(b))
        return 1;
    if (b.length != BODY || memcmp(again, body, BODY) != 0) {
        fprintf(stderr, "the listing was assembled to another body\n");
        return 1;
    }

    struct desk_answer c = desk_carry((const uint8_t *)sheet, strlen(sheet), bytes, sizeof bytes, ends, 2,
                                      (const uint8_t *)sheet2, strlen(sheet2), bytes2, sizeof bytes2, ends2, 2, body, BODY,
                                      carried, sizeof carried, carried_labels, DESK_CARRY_LABELS(BODY));
    if (refused(c))
        return 1;
    printf("body=");
    for (size_t i = 0; i < c.length; i++)
        printf("%02X", carried[i]);
    printf("\n");

    struct desk_answer d = desk_decode((const uint8_t *)sheet, strlen(sheet), damaged, sizeof damaged, records,
                                       DESK_DECODE_WORDS(sizeof damaged));
    return refused(d) && d.number == DESK_BEYOND ? 0 : 1;
}
