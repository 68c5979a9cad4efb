/* Drawing ordered binary trees on a grid, checking such drawings, comparing two lines, plotting drawings by a
 * pen, and hanging leaves, at once or in two halves, and cutting them in the table that holds the trees.
 *
 * Link crates/bt/out/libbt.a, which `rt lib` makes in crates/bt; of the C library it wants memcpy and memset
 * alone. All functions end, allocate nothing, keep nothing between calls, and may be called from several
 * threads at once. Their stack was measured below 110 KB.
 *
 * A table is bytes in records of 8: four unsigned 16-bit words, low byte first: next, left, right, tag.
 * Record 0 is the head: next names the first record of the chain, left the root of the first tree, right the
 * first free record, tag is 0. Left and right name children, 0 is none. Every other chained record that no
 * chained record names is a root as well; the trees of these come after the first, in the order of the chain.
 * Where next and left of the head are both 0, the table is empty: it has no nodes. Free records are chained
 * by next as well; their left, right and tag are 0. Records on neither chain may hold anything; they change
 * no answer and are never taken. At most 4,097 records. Placements are 16-bit numbers: record k has its
 * column at 2k and its row at 2k + 1. Lengths count elements, not bytes.
 *
 * A refusal is a number, and then nothing is written and all other bits of the answer are 0; 0 is no refusal.
 * Every call on a table tests, in this order:
 *    1  the length is 0, not a multiple of 8 or above 32,776
 *    2  the head's tag is not 0
 *    3  the chain leaves the table or meets a record twice
 *    8  the free chain leaves the table, meets a record twice or meets the chain, or a free record's left,
 *       right or tag is not 0
 *    4  a left or right of a chained record leaves the table or the chain
 *    5  the table is not empty, and the head's root is off the chain or named as a child, or a chained record
 *       is named more than once or reached from no root
 * and then, of the following, those that it names, in the order in which it names them:
 *    6  placements shorter than 2 times the records
 *    7  the pitch is 0
 *    9  the node or the side cannot be had
 *   10  no record is free
 *   11  another record would now be used
 *
 * What is said below of drawings and tables beyond an answer and what is written (that drawings are good,
 * narrow and short, that cutting restores every byte, and the like) is proved: each such promise stands in
 * crates/promises/specs/Promises.antt, and is named at the Rattle function that the call hands on to. Time,
 * stack and threads are not proved.
 *
 * A pointer is never NULL, not even with the length 0; placements are aligned as uint16_t is, a point as
 * double is, and no two of table, placements and point overlap. */
#ifndef BT_H
#define BT_H

#include <stddef.h>
#include <stdint.h>

#ifdef __cplusplus
extern "C" {
#endif

/* Draws the trees of a table one under the other, each with its root at column 0 in the row under the tree
 * before; writes the column and the row of every node on the chain, and no other entry. The width is at most
 * bt_allowed_width of the nodes of all trees, and the height at most their number; every row below the height
 * holds a node. The branches that hang from one spine, which goes from the root of a tree or of a branch
 * always to the larger subtree, have no row in common, and the nodes of the spine are outside their
 * rectangles. Answers the refusal in bits 0 to 15, the number of nodes in bits 16 to 31, the width in bits 32
 * to 47, the height in bits 48 to 63. Refuses with 6. */
uint64_t bt_draw(const uint8_t *table, size_t table_len, uint16_t *placements, size_t placements_len);

/* Draws the trees of a table for a sheet that is wide and low: their mirror images, left and right of every
 * node exchanged, as bt_draw draws them, with column and row of every node then exchanged, and width and
 * height as well. So the trees stand side by side with their roots in row 0, the height is at most
 * bt_allowed_width of the nodes, and the width at most their number. Writes the column and the row of every
 * node on the chain, and no other entry, and answers as bt_draw does. Refuses with 6. bt_check is for upright
 * drawings: it says good of a wide one when columns and rows are exchanged, and left and right of every node
 * on the chain. */
uint64_t bt_draw_wide(const uint8_t *table, size_t table_len, uint16_t *placements, size_t placements_len);

/* Checks any placements against a table, and writes nothing. Refuses with 6. Answers 0 for a good drawing, a
 * refusal, or the first of these that holds:
 *   21 two nodes at one point    22 a child above its parent    23 two lines cross, as bt_compare says it
 *   25 two lines share a point other than one that both end at, or a node lies on a line that it does not end
 *   24 a left child not left of its right sibling, seen from their parent
 * A child may be level with its parent; of two level children the left one is to be left of the parent, the
 * right one right of it. */
uint32_t bt_check(const uint8_t *table, size_t table_len, const uint16_t *placements, size_t placements_len);

/* How two lines meet, from column c1 and row r1 to c2 and r2, and from c3 and r3 to c4 and r4. Answers
 *    0  separate: they share no point
 *    1  at a shared end only: they share a point, and none but an end of both
 *    2  crossing: they share a point that is inside both, no end of either, and are not parallel
 *    3  touching: they share a point in any other way, as where one ends on the other or runs along it
 * A line from a point to itself is parallel to every line; nothing is refused. */
uint32_t bt_compare(uint16_t c1, uint16_t r1, uint16_t c2, uint16_t r2, uint16_t c3, uint16_t r3, uint16_t c4, uint16_t r4);

/* The width that a drawing of so many nodes may have: 3 * floor(log2 nodes) + 1; 0 for 0 nodes and for more
 * than 4,096; never above 37, which it is for 4,096. The width of bt_draw keeps to it, and the height of
 * bt_draw_wide. */
uint64_t bt_allowed_width(uint64_t nodes);

/* One stroke of a pen that plots the lines of a table with any placements, good or not. Each line, from a
 * node to a child of it, gives a lift to the parent and then a draw to the child. Lines go by parent in the
 * order of the chain, left first, strokes are numbered from 0, and a number past the last stroke gives done.
 * The pitch is that of the grid, in quarter millimetres: a coordinate, in millimetres, is the column or the
 * row times the pitch, divided by 4, and is exact. For a lift or a draw, where point_len is 2 or more, the
 * column's coordinate is written to point[0] and the row's to point[1]; nothing else is ever written. Answers
 * the refusal in bits 0 to 15, and in bits 16 to 31 0 for done, 1 for a lift, 2 for a draw. Refuses with 6,
 * then 7. */
uint32_t bt_stroke(const uint8_t *table, size_t table_len, const uint16_t *placements, size_t placements_len, uint8_t pitch, uint64_t number, double *point,
                   size_t point_len);

/* Hangs a leaf in a tree of a table: the first free record becomes the child of the parent on a side, 0 left
 * or 1 right, with that tag, and follows its parent in the chain. Parent 0, with either side, hangs the root
 * in an empty table. Answers the refusal in bits 0 to 15, the record in bits 16 to 31. Refuses with 9 if the
 * side is above 1, for parent 0 if the table is not empty, for another parent if it is not on the chain or
 * has a child on that side; then with 10. */
uint32_t bt_hang(uint8_t *table, size_t table_len, uint16_t parent, uint8_t side, uint16_t tag);

/* Holds a place, the first half of bt_hang: answers what bt_hang would answer with the same parent and side,
 * the record that would be used or a refusal, and writes nothing. Nothing is set aside: other calls may use
 * the record before the second half comes. Refuses as bt_hang does. */
uint32_t bt_hold(const uint8_t *table, size_t table_len, uint16_t parent, uint8_t side);

/* Hangs what was held, the second half of bt_hang: if bt_hold would still name the given record, writes what
 * bt_hang writes and answers 0; so the two, one after the other, do what bt_hang does. Refuses as bt_hang
 * does, then with 11. */
uint32_t bt_hang_held(uint8_t *table, size_t table_len, uint16_t parent, uint8_t side, uint16_t tag, uint16_t record);

/* Cuts a leaf off: takes it out of the chain and out of the link that names it, if any does, and puts it
 * first among the free records, its other words 0. So a tree of one node goes; the head's root is cut only as
 * the last node, which leaves the table empty. Cutting a leaf just hung leaves every byte as it was before.
 * Answers 0, or a refusal. Refuses with 9 if the record is not on the chain or has a child, or is the head's
 * root and not the only node. */
uint32_t bt_cut(uint8_t *table, size_t table_len, uint16_t node);

/* The parts of what bt_draw and bt_draw_wide answer; the first is in what bt_stroke, bt_hang and bt_hold answer too. */
static inline unsigned bt_refusal(uint64_t drawn) { return drawn & 0xffff; }
static inline unsigned bt_nodes(uint64_t drawn) { return drawn >> 16 & 0xffff; }
static inline unsigned bt_width(uint64_t drawn) { return drawn >> 32 & 0xffff; }
static inline unsigned bt_height(uint64_t drawn) { return drawn >> 48 & 0xffff; }

/* What the pen does, in what bt_stroke answers if it is no refusal. */
enum { BT_PEN_DONE, BT_PEN_LIFT, BT_PEN_DRAW };
static inline unsigned bt_pen(uint32_t stroke) { return stroke >> 16; }

/* What bt_compare answers. */
enum { BT_SEPARATE, BT_SHARED_END, BT_CROSSING, BT_TOUCHING };

/* The record, in what bt_hang or bt_hold answers if it is no refusal. */
static inline unsigned bt_leaf(uint32_t hung) { return hung >> 16; }

#ifdef __cplusplus
}
#endif

#endif
