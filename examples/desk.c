/* A routine over two ropes' records: is its packet accepted, and what does it leave?
 * The packet comes from the file that is named, or from examples/rope.packet. */
#include <stdio.h>
#include "vanshorley.h"

enum { CODE = 16, HEAP = 16, BLOCKS = 4, REGISTERS = 16, BUDGET = 1000 };

/* A rope's record is seven words: tag, class, discard mark and next rope stand open; splicer's number, test load and
 * life are under seal. Two ropes, each the other's next; words 7 and 15 belong to no record. */
static const uint32_t ropes[HEAP] = {
    101, 2, 0, 8, 9001, 480, 12, 77,
    102, 4, 0, 0, 9002, 650, 30, 77,
};
static const uint32_t rows[BLOCKS] = { 0, 0, 8, 0 };    /* base and shape of each */
static const uint32_t start[REGISTERS] = { 0, 0, 2 };   /* r1: the first rope; r2: how many */

static uint8_t packet[VANS_PACKET_BYTES + 1];           /* one more, so that a longer one is seen as such */
static uint8_t code[CODE * 4], heap[HEAP * 4], blocks[BLOCKS * 4], regs[REGISTERS * 4];

static void to_bytes(uint8_t *bytes, const uint32_t *words, size_t n)
{
    for (size_t i = 0; i < n; i++)
        for (int k = 0; k < 4; k++)
            bytes[4 * i + k] = (uint8_t)(words[i] >> 8 * k);
}

static uint32_t word(const uint8_t *bytes, size_t i)
{
    const uint8_t *b = bytes + 4 * i;
    return b[0] | (uint32_t)b[1] << 8 | (uint32_t)b[2] << 16 | (uint32_t)b[3] << 24;
}

static void show(const char *name, const char *form, const uint8_t *bytes, size_t n)
{
    printf("%s", name);
    for (size_t i = 0; i < n; i++)
        printf(form, (unsigned)word(bytes, i));
    printf("\n");
}

int main(int argc, char **argv)
{
    const char *name = argc > 1 ? argv[1] : "examples/rope.packet";
    FILE *file = fopen(name, "rb");
    if (!file) {
        printf("%s cannot be read\n", name);
        return 2;
    }
    size_t length = fread(packet, 1, sizeof packet, file);
    fclose(file);

    uint64_t verdict = vans_check(packet, length);
    if (vans_number(verdict))
        printf("check: REFUSED %u AT %u\n", vans_number(verdict), (unsigned)vans_place(verdict));
    else
        printf("check: ACCEPTED\n");

    to_bytes(heap, ropes, HEAP);
    to_bytes(blocks, rows, BLOCKS);
    to_bytes(regs, start, REGISTERS);
    uint64_t answer = vans_desk(packet, length, code, sizeof code, heap, sizeof heap,
                                blocks, sizeof blocks, regs, sizeof regs, BUDGET);
    printf("desk: status %u, place %u, %u steps\n",
           vans_number(answer), (unsigned)vans_place(answer), (unsigned)vans_count(answer));
    show("registers:", " %u", regs, REGISTERS);
    show("first rope:", " %u", heap, HEAP / 2);
    show("second rope:", " %u", heap + sizeof heap / 2, HEAP / 2);
    show("code:", " %08x", code, CODE);
    return 0;
}
