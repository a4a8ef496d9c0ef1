/* Zurbeshik for hosts written in C: which nodes are wise and which form the maximal guild.
 *
 * Link with the static library that `tools/build chost` writes to crates/chost/out/libchost.a,
 * as host/Makefile does.
 */
#ifndef ZURBESHIK_H
#define ZURBESHIK_H

#include <stddef.h>
#include <stdint.h>

#ifdef __cplusplus
extern "C" {
#endif

/* The answer for a statement text and a mask of faulty nodes.
 *
 * text     the first of `len` bytes, which are only read; any bytes at all, no byte 0 is needed
 *          at the end. Where len is 0, pass any pointer that is not NULL.
 * faulty   node k is the bit worth 2^(k-1), from node 1.
 *
 * The answer has the wise nodes in bits 0 to 15, the maximal guild in bits 16 to 31, and the
 * refusal, or 0, in bits 32 to 39; the bits above are 0, and a refusal zeroes both masks. An
 * answer of 0 is no refusal: it says that no node is wise.
 *
 * Refusals, the smallest that holds:
 *   1  a line has no end, a first field that is not N, F or Q, a wrong number of fields or form
 *   2  a count, node or mask outside its range
 *   3  N missing, second or not first, or lines out of order
 *   4  a 17th F or Q line of a node
 *   5  a node has no F line
 *   8  the faulty mask has a bit above the number of nodes
 *   9  the statement is not sound
 *
 * The call allocates nothing, keeps nothing and may be made from several threads at once.
 */
uint64_t zurbeshik_guild(const uint8_t *text, size_t len, uint16_t faulty);

/* The parts of an answer. */
static inline uint16_t zurbeshik_wise(uint64_t answer) { return (uint16_t)(answer & 0xffff); }
static inline uint16_t zurbeshik_guild_mask(uint64_t answer) { return (uint16_t)(answer >> 16 & 0xffff); }
static inline uint8_t zurbeshik_refusal(uint64_t answer) { return (uint8_t)(answer >> 32 & 0xff); }

#ifdef __cplusplus
}
#endif

#endif
