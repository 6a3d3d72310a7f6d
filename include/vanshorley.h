/* The desk box of a rope register, for C: check, erase and run listing packets.
 *
 * Link crates/desk/out/libdesk.a, which `rt lib` in crates/desk writes, for x86-64. Every call is proved to do what
 * stands here, for every input. Refusals and places are those of document 01, "Refusal numbers".
 *
 * Buffers are bytes with a length in bytes. A word is four bytes, lowest first. A call keeps no pointer and no state,
 * so calls may run at the same time on buffers of their own.
 *
 * What the proof assumes of the caller:
 *  - each pointer is valid for its length and not NULL, also where the length is 0;
 *  - a buffer that is written overlaps no other buffer of the call;
 *  - nobody else touches the buffers during the call;
 *  - the stack has VANS_STACK bytes left.
 */
#ifndef VANSHORLEY_H
#define VANSHORLEY_H

#include <stddef.h>
#include <stdint.h>

#ifdef __cplusplus
extern "C" {
#endif

/* Limits. What is over one is refused, not cut. */
#define VANS_PACKET_BYTES 65536   /* a packet: else 6 */
#define VANS_CODE_WORDS 1024      /* code for vans_run: else 36. No packet needs more code */
#define VANS_HEAP_WORDS 16384     /* a heap: else 30 */
#define VANS_BLOCK_WORDS 1024     /* a block table: else 30 */
#define VANS_REGISTER_BYTES 64    /* sixteen registers, exactly: else 30 */
#define VANS_BUDGET 1000000       /* a run: else 34 */
#define VANS_STACK 524288         /* bytes of stack; the most that was measured is 356 kB */

/* An answer is number * 2^56 + place * 2^32 + count. The number is a status or a refusal. */
#define VANS_HALTED 0             /* also: accepted, read, erased */
#define VANS_OUTSIDE_CODE 40      /* vans_run alone: traps */
#define VANS_BAD_WORD 41
#define VANS_OUTSIDE_HEAP 42
#define VANS_BUDGET_USED 43

static inline unsigned vans_number(uint64_t answer) { return (unsigned)(answer >> 56); }
static inline uint32_t vans_place(uint64_t answer) { return (uint32_t)(answer >> 32) & 0xffffff; }
static inline uint32_t vans_count(uint64_t answer) { return (uint32_t)answer; }

/* Checks a packet. 0: accepted. 1 to 6: not a packet; the place is a byte of it, for 1 its length, for 6 zero.
 * 10 to 23: an item breaks a rule; the place is the item, for 21 and 22 the item count. The count is 0. */
uint64_t vans_check(const uint8_t *packet, size_t packet_len);

/* Reads a packet's numbers, in order. 0: the count is of numbers, which stand in front of the buffer, a word each;
 * the bytes behind keep their values. 1 to 6: as vans_check. 35: they do not fit; the place is how many there are.
 * With a refusal nothing is written and the count is 0. */
uint64_t vans_read(const uint8_t *packet, size_t packet_len, uint8_t *numbers, size_t numbers_len);

/* Checks a packet and writes its code. 0: the count is of code words, which stand in front of the buffer; the bytes
 * behind keep their values. Refusals: those of vans_check; 35, the code does not fit, the place is the words needed
 * (the buffer counts by whole words); 30 at 0, the buffer is not whole words. With a refusal nothing is written and
 * the count is 0. */
uint64_t vans_erase(const uint8_t *packet, size_t packet_len, uint8_t *code, size_t code_len);

/* The bare machine: runs code over a heap from pc 0. It checks no types: this is not the call for listings that others send.
 * 0: halted. 40, 41, 42: a trap. 43: the budget is used. The count is of words acted on; heap and registers are the run's.
 * Refusals, at 0 and with count 0, in this order: 36, code over its limit (by whole words); 30, heap over its limit, a
 * length that is not whole words, or registers that are not 64 bytes; 34, budget over its limit. They change nothing. */
uint64_t vans_run(const uint8_t *code, size_t code_len, uint8_t *heap, size_t heap_len,
                  uint8_t *regs, size_t regs_len, uint32_t budget);

/* The desk call: checks a packet and the start, erases, and runs. `blocks` is a row of two words for each block: its
 * base, counted in words of the heap, and its shape.
 * 0: halted. 43: the budget is used. The count is of words acted on; the code stands in front of its buffer, whose bytes
 * behind it keep their values; heap and registers are the run's. A listing that is accepted never traps.
 * Refusals, in this order: those of vans_check; 35, the code does not fit, the place is the words needed (by whole words);
 * 30 at 0, heap or block table over its limit, a block table of odd length, a length that is not whole words, or
 * registers that are not 64 bytes; 34 at 0, budget over its limit; 31, a bad row, the place is the row from 0; 32, a
 * pointer field that is not the base of a block of its shape, the place is its address; 33, r0 is not 0 or a register is
 * not such a base, the place is the register. With a refusal nothing is written and the count is 0. */
uint64_t vans_desk(const uint8_t *packet, size_t packet_len, uint8_t *code, size_t code_len,
                   uint8_t *heap, size_t heap_len, const uint8_t *blocks, size_t blocks_len,
                   uint8_t *regs, size_t regs_len, uint32_t budget);

#ifdef __cplusplus
}
#endif

#endif
