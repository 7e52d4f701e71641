/* Arrabolzu: episode blocks, mining and judging, for a caller in C.
 *
 * Link with libarrabolzu.a, which `c/library PROCESSOR` writes to target/c/PROCESSOR/ for x86_64, aarch64, armv7 or riscv64. It
 * asks for memcpy, memmove and memset, as any freestanding C does, and for nothing else.
 *
 * Every call takes every input, ends, and answers one 64-bit number:
 *
 *   bits 32 to 39   0, or the number of a refusal (1 to 12)
 *   bits 0 to 31    the call's value; for a refusal its place
 *
 * The macros below take an answer apart. A refusal has written nothing anywhere. Lengths count elements: bytes, for the work
 * of judging 64-bit numbers. They are 64 bits wide on every processor, whatever its size_t is. A pointer must point to as many
 * elements as its length says; with length 0 it is not read. What a call is lent to write may not overlap what it reads. The
 * calls keep no state and allocate nothing.
 *
 * A code is a number from 0 to 31. Code 31 is a heartbeat, which newer firmware writes every few seconds. The events of a
 * record or of a lent episode are its codes other than 31, in order; heartbeats alone make an empty episode. Reading and adding
 * keep heartbeats, and every length and place counts them. Mining and judging go by the events alone. No leaf of a tree has
 * code 31: a tree with such a leaf gets 9, as does every other that is not well formed. README.md has the table of refusals.
 */
#ifndef ARRABOLZU_H
#define ARRABOLZU_H

#include <stdint.h>

#ifdef __cplusplus
extern "C" {
#endif

#define ARRABOLZU_BLOCK 512        /* bytes of a log block and of a tree block */
#define ARRABOLZU_LOG 8192         /* bytes of the longest log, 16 blocks */
#define ARRABOLZU_EPISODE 63       /* codes of the longest episode, heartbeats counted */
#define ARRABOLZU_HEARTBEAT 31     /* the code of a heartbeat, which is no event */
#define ARRABOLZU_MINE_WORK 16384  /* bytes of work that mining needs */
#define ARRABOLZU_JUDGE_WORK 8128  /* 64-bit numbers of work that judging needs */

#define ARRABOLZU_REFUSAL(answer) ((unsigned)((uint64_t)(answer) >> 32))             /* 0 where the call was accepted */
#define ARRABOLZU_VALUE(answer) ((uint32_t)((uint64_t)(answer) & UINT32_C(0xffffffff))) /* the value, or the refusal's place */

/* Reads the record whose length byte is at `at` of a log block. Value: the place of the next length byte; the record's codes,
 * heartbeats among them, are the bytes from at + 1 up to it. Tests neither the block's check nor its count. Refusals: 1; 5 or
 * 6 at this record. */
uint64_t arrabolzu_read(const uint8_t *block, uint64_t block_length, uint64_t at);

/* Adds an episode, a code a byte and heartbeats among them, to a log block. Value: the new count. Writes the record, the count
 * and the check; no other byte changes. 512 zero bytes are a block with no record. Refusals, in this order: 1, 4, 5 or 6 and
 * padding, 10, 11, 12. */
uint64_t arrabolzu_add(uint8_t *block, uint64_t block_length, const uint8_t *episode, uint64_t episode_length);

/* Mines the tree of a log of 1 to 16 blocks, heartbeats left out. Value: the number of nodes, 123 at most. Writes the first 512
 * bytes of `out`, nothing beyond; the first 16,384 bytes of `work` are zero afterwards, the rest is as found. Refusals, in this
 * order: 1, 2, 3, then block by block 4, 5 or 6, padding; 7 last. Places count from the start of the log. */
uint64_t arrabolzu_mine(const uint8_t *log, uint64_t log_length, uint8_t *out, uint64_t out_length, uint8_t *work,
                        uint64_t work_length);

/* Checks a tree block. Value: the number of nodes. Refusals: 8; 9 for a tree that is not well formed, or has a leaf 31. */
uint64_t arrabolzu_check(const uint8_t *tree, uint64_t tree_length);

/* Judges an episode against a tree. Value: 1 where the language of the tree has the episode without its heartbeats, 0 where it
 * has not; a code that no leaf has is no refusal. The first 8,128 numbers of `work` are zero afterwards, the rest is as found.
 * Refusals, in this order: 8 for the length, 3, 8 for the check, 9, 10, 11. */
uint64_t arrabolzu_judge(const uint8_t *tree, uint64_t tree_length, const uint8_t *episode, uint64_t episode_length,
                         uint64_t *work, uint64_t work_length);

#ifdef __cplusplus
}
#endif

#endif
