/*
 * hasurimba.h: the C interface of the static library hasurimba.
 *
 * Every function returns 0 where it accepts, else the refusal's number + 256 * the place reported.
 * An accepted call puts its values into out; a refused call leaves out as found.
 * A table is handed in as a pointer to its first entry and the number of its entries.
 *
 * Memory. All of it is the caller's, before, during and after a call: the library allocates nothing, keeps no
 * pointer and has no variables. A pointer is aligned for its type and never null, also where the number of
 * entries is 0. What is handed to one call does not overlap, out and record included. A call touches nothing
 * else, changes only what its description names, and always returns, whatever the memory holds. Calls on separate
 * memory may run at the same time.
 *
 * Value words. An even word is a small integer. 4294967295 is nil. Any other odd word w is a reference
 * to place (w - 1) / 2, a place being a word's number in the heap.
 *
 * Objects. A header is 4 x payload words + kind. Kind 0 is a record (each payload word is a value), kind 1
 * is raw (payload is never interpreted). A header is legal exactly if it is below 4096 and its remainder
 * by 4 is 0 or 1. Objects lie end to end from place 0 to exactly the top. Words at or above the top are
 * free.
 *
 * Tables. A block is 64 words. Bit i (least first) of bitmap word b stands for place 64b + i. Marks, live
 * bitmap and offset table have ceil(heap length / 64) entries.
 *   Marks: set at the headers of objects to keep.
 *   Live: set for each word, header or payload, of a marked object.
 *   Offset entry b: the number of live words below place 64b.
 */
#ifndef HASURIMBA_H
#define HASURIMBA_H

#include <stddef.h>
#include <stdint.h>

#ifdef __cplusplus
extern "C" {
#endif

/*
 * Checks heap, roots and marks, and writes nothing but out. Accepted: out[0] is the number of live words,
 * out[1] the number of marked objects. The refusals, tried in this order:
 *
 *   1  heap over 8192 words, top above heap length, over 64 roots, or marks of wrong length; at 0
 *   2  illegal header, or object past the top; the walk stops at the first bad header; at that place
 *   3  a mark bit that is not at an object's header below the top, so also one past the heap; at the lowest
 *      such place
 *   4  a root that is a reference to a place without a mark; at the lowest slot
 *   5  a payload word of a marked record that is a reference to a place without a mark; at the lowest such
 *      place
 *
 * A reference past the tables is one to a place without a mark. Payload words of unmarked records and of
 * raw objects are not judged.
 */
uint64_t hasurimba_check(
    const uint32_t *heap, size_t heap_len,
    uint32_t top,
    const uint32_t *roots, size_t roots_len,
    const uint64_t *marks, size_t marks_len,
    uint64_t out[4]);

/*
 * Slides the marked objects together: the new place of a live word is the number of live words below it.
 * With L live words the move goes by T = ceil(L / 64) target blocks. Step t writes the live words number 64t to
 * 64t + 63 into block t, and order says in which order the steps are taken: it lists each of 0 to T - 1 once,
 * and step t comes after every other step that some live word standing in block t goes to. Ascending order
 * is always accepted.
 *
 * Nothing that is handed in may overlap. order is only read; live and offsets may hold anything before the
 * call. The refusals, tried in this order:
 *
 *   1  heap over 8192 words, top above heap length, over 64 roots, marks, live or offsets of wrong length, or
 *      order over 128 entries; at 0
 *   2, 3, 4, 5  as for hasurimba_check
 *   6  order breaks; at the first position whose entry is T or more, a repeat, or too early; if there is none
 *      and the length is not T, at the smaller of length and T
 *
 * Refusals 1 to 5 leave everything as found. Refusal 6 leaves heap, roots and marks as found, with live and
 * offsets filled in.
 *
 * Accepted: out[0] is L, which is the new top, out[1] the number of marked objects, out[2] is T. Words 0 to
 * L - 1 of the heap are the slid objects, L to the old top - 1 are zero, and words from the old top on are as
 * found. References in marked records and in roots are to the new places. marks are all zero, and live and
 * offsets describe the old heap.
 */
uint64_t hasurimba_collect(
    uint32_t *heap, size_t heap_len,
    uint32_t top,
    uint32_t *roots, size_t roots_len,
    uint64_t *marks, size_t marks_len,
    const uint32_t *order, size_t order_len,
    uint64_t *live, size_t live_len,
    uint32_t *offsets, size_t offsets_len,
    uint64_t out[4]);

/*
 * The new place of a live place: the offset entry of its block plus the live bits of that block below it.
 * The tables may hold anything. In this order:
 *
 *   refused by 1 at 0 if the lengths differ or exceed 128
 *   dead if the place is outside the tables
 *   refused by 1 at 0 if its block's offset entry exceeds 8192
 *   dead if its live bit is clear
 *
 * Accepted: out[0] is 1 and out[1] the new place, or out[0] is 0 for dead.
 */
uint64_t hasurimba_old_to_new(
    const uint64_t *live, size_t live_len,
    const uint32_t *offsets, size_t offsets_len,
    uint32_t place,
    uint64_t out[4]);

/*
 * The old place of a new one: the place whose live bit is set with exactly that many live bits below it.
 * Refused by 1 at 0 if the lengths differ or exceed 128; nothing else of the offset table matters.
 *
 * Accepted: out[0] is 1 and out[1] the old place, or out[0] is 0 for none.
 */
uint64_t hasurimba_new_to_old(
    const uint64_t *live, size_t live_len,
    const uint32_t *offsets, size_t offsets_len,
    uint32_t place,
    uint64_t out[4]);

/*
 * The store calls. A store is a record of eight words, a heap and root slots; the caller keeps all three and hands
 * them to every call as the last one left them.
 *
 *   record[0]  the top: heap words in use
 *   record[1]  calls answered without refusal; it wraps from 2^64 - 1 to 0
 *   record[2] to record[7]  not used: they stay as found
 *
 * A new store has a record of zeros and 4294967295 (nil) in every root; its heap may hold anything. Slot s is
 * roots[s]. Values go from slot to slot and between slots and fields; a reference never leaves the store as a number,
 * and a raw word never goes through a slot.
 *
 * The refusals. Each call names those that it has, in the order in which it tries them:
 *
 *   1   heap over 8192 words, record[0] above heap length (one of more than 32 bits is), or over 64 roots; at 0
 *   7   no such slot; at that slot
 *   13  the slot asked about or said to hold an object holds a reference at or above the top, to an illegal header,
 *       or to an object past the top; at that slot
 *   8   the slot does not hold the kind of object wanted; at that slot
 *   9   field or raw number not below the object's count; at that field
 *   10  integer outside -1073741824 to 1073741823; at 0
 *   12  k above 1023; at 0
 *   11  no room: top + 1 + k above heap length; at 0
 *
 * A refused call leaves record, heap, roots and out as found. An accepted one adds 1 to record[1], and changes
 * nothing but that and what is named below.
 */

/* Puts an integer into a slot. Refused by 1, 7, 10. Changes roots[slot]. */
uint64_t hasurimba_put_integer(
    uint64_t record[8],
    uint32_t *heap, size_t heap_len,
    uint32_t *roots, size_t roots_len,
    uint32_t slot,
    int32_t value);

/* Puts nil into a slot. Refused by 1, 7. Changes roots[slot]. */
uint64_t hasurimba_put_nil(
    uint64_t record[8],
    uint32_t *heap, size_t heap_len,
    uint32_t *roots, size_t roots_len,
    uint32_t slot);

/* Copies the word of slot source to slot target, and does not judge it. Refused by 1, 7 of source, 7 of target.
 * Changes roots[target]. */
uint64_t hasurimba_copy(
    uint64_t record[8],
    uint32_t *heap, size_t heap_len,
    uint32_t *roots, size_t roots_len,
    uint32_t source,
    uint32_t target);

/* Makes a record of k nils at the top, and puts a reference to it into a slot. Refused by 1, 7, 12, 11. Changes
 * roots[slot], the 1 + k heap words from the old top on, and record[0], which grows by 1 + k. */
uint64_t hasurimba_new_record(
    uint64_t record[8],
    uint32_t *heap, size_t heap_len,
    uint32_t *roots, size_t roots_len,
    uint32_t slot,
    uint32_t k);

/* Makes a raw object of k zeros; else as hasurimba_new_record. */
uint64_t hasurimba_new_raw(
    uint64_t record[8],
    uint32_t *heap, size_t heap_len,
    uint32_t *roots, size_t roots_len,
    uint32_t slot,
    uint32_t k);

/* Reads a field of the record that slot object holds, into slot target. Refused by 1, 7 of object, 7 of target, 13,
 * 8, 9. Changes roots[target]. */
uint64_t hasurimba_read_field(
    uint64_t record[8],
    uint32_t *heap, size_t heap_len,
    uint32_t *roots, size_t roots_len,
    uint32_t object,
    uint32_t field,
    uint32_t target);

/* Writes the word of slot source to a field of the record that slot object holds. Refused by 1, 7 of object, 7 of
 * source, 13, 8, 9. Changes that heap word. */
uint64_t hasurimba_write_field(
    uint64_t record[8],
    uint32_t *heap, size_t heap_len,
    uint32_t *roots, size_t roots_len,
    uint32_t object,
    uint32_t field,
    uint32_t source);

/* Reads a word of the raw object that slot object holds. Refused by 1, 7, 13, 8, 9. Accepted: out[0] is the word. */
uint64_t hasurimba_read_raw(
    uint64_t record[8],
    uint32_t *heap, size_t heap_len,
    uint32_t *roots, size_t roots_len,
    uint32_t object,
    uint32_t index,
    uint64_t out[4]);

/* Writes a word of the raw object that slot object holds. Refused by 1, 7, 13, 8, 9. Changes that heap word. */
uint64_t hasurimba_write_raw(
    uint64_t record[8],
    uint32_t *heap, size_t heap_len,
    uint32_t *roots, size_t roots_len,
    uint32_t object,
    uint32_t index,
    uint32_t word);

/*
 * Asks what a slot holds. Refused by 1, 7, 13. Accepted:
 *
 *   out[0] is 0, an integer: out[1] is its value as an int64_t, so (int64_t)out[1] is below zero for one below zero
 *   out[0] is 1, nil: out[1] stays as found
 *   out[0] is 2, a record: out[1] is the number of its fields
 *   out[0] is 3, a raw object: out[1] is the number of its words
 */
uint64_t hasurimba_ask(
    uint64_t record[8],
    uint32_t *heap, size_t heap_len,
    uint32_t *roots, size_t roots_len,
    uint32_t slot,
    uint64_t out[4]);

/* Asks whether two slots hold the same word, and does not judge it. Refused by 1, 7 of first, 7 of second. Accepted:
 * out[0] is 1 if they do, else 0. */
uint64_t hasurimba_same(
    uint64_t record[8],
    uint32_t *heap, size_t heap_len,
    uint32_t *roots, size_t roots_len,
    uint32_t first,
    uint32_t second,
    uint64_t out[4]);

/*
 * Collects the store's heap: hasurimba_collect with record[0] as the top, the same refusals 1 to 6, and the same
 * values in out. Accepted: record[0] is the new top L, and record[1] has grown by 1. A refusal leaves the record as
 * found too; only refusal 6 has filled in live and offsets.
 */
uint64_t hasurimba_store_collect(
    uint64_t record[8],
    uint32_t *heap, size_t heap_len,
    uint32_t *roots, size_t roots_len,
    uint64_t *marks, size_t marks_len,
    const uint32_t *order, size_t order_len,
    uint64_t *live, size_t live_len,
    uint32_t *offsets, size_t offsets_len,
    uint64_t out[4]);

#ifdef __cplusplus
}
#endif

#endif
