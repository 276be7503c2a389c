/* The Aura page-script type judge, as a static library (libaura_c.a, from `rt lib` in crates/aura_c). Every function is
   proved to do what is said here, whatever the bytes are; none keeps a pointer, allocates or calls out.
   docs/FORMAT.md has the bytes of tables, questions and types, the numbers of refusals and the kinds of diagnostics. */
#ifndef AURA_JUDGE_H
#define AURA_JUDGE_H

#include <stddef.h>
#include <stdint.h>

#ifdef __cplusplus
extern "C" {
#endif

/* An answer's bytes:
     0         number: 0, or why the judge refuses (1 to 13)
     1         pass mark: 1 passed, 0 not
     2 .. 3    length of the type, low byte first
     4 .. 11   count of diagnostics, low byte first
     12 .. 267 the type, with zeros behind its length */
#define AURA_JUDGE_ANSWER_SIZE 268

/* What aura_judge answers where the answer's room has fewer bytes than that. */
#define AURA_JUDGE_TOO_SHORT 255

/* AURA_JUDGE_ANSWER_SIZE. */
size_t aura_judge_answer_size(void);

/* Judges a question under a table. The diagnostics are written to `diagnostics`, 5 bytes each (kind, node in 2 bytes,
   number in 2 bytes, low byte first), and the answer to `answer`; all bytes behind them are set to zero. Answers the
   answer's number. Where it is not 0, every byte of both but the number is zero.
   Where `answer` has fewer than 268 bytes nothing is judged, every byte of both is zero, and the answer is 255.
   Each pointer has as many bytes behind it as its length says and is not null, even where that is 0; those that are
   written overlap no other. */
uint8_t aura_judge(const uint8_t *table, size_t table_length,
                   const uint8_t *question, size_t question_length,
                   uint8_t *diagnostics, size_t diagnostics_length,
                   uint8_t *answer, size_t answer_length);

/* How many bytes the longest question that aura_load writes has: 5, and 2 for each of 64 nodes. */
#define AURA_LOAD_LONGEST 133

/* Why aura_load refuses: a node count outside 1 to 64; an output buffer that is too short. */
#define AURA_LOAD_NODE_COUNT 14
#define AURA_LOAD_TOO_SHORT 15

/* Writes a question to test with: the one that a start number and a node count from 1 to 64 give, on every machine the
   same. It begins with FF FF FF FF 00, has 5 + 2 * nodes bytes and exactly that many nodes. No id occurs in it, so that
   it is accepted (draws none of 8 to 11) under every accepted table. The question is written to `out`, and all bytes
   behind it are set to zero; its length is written to `len`. Answers 0.
   Where the node count is not 1 to 64 the answer is 14, else where `out` has fewer bytes than the question 15; every
   byte of `out` is then zero, and so is `len`.
   `out` has as many bytes behind it as its length says; neither pointer is null, and the two do not overlap. */
uint8_t aura_load(uint32_t start, size_t nodes, uint8_t *out, size_t out_length, size_t *len);

#ifdef __cplusplus
}
#endif

#endif
