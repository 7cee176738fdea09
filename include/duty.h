/* The kitchen duty planner for C.
 *
 * The caller lends byte slices, each as a pointer and a length, and keeps
 * them; nothing is allocated or held between calls. A refused call leaves
 * every lent byte as it was. With length 0 the pointer may be null. Slices of
 * one call must not overlap, but those that are only read (const) may share
 * bytes.
 *
 * Each function answers 64 bits: the upper 32 are the refusal's number, or 0
 * if the call was accepted; the lower 32 are the refusal's place, or the value.
 *
 * The place is a byte of the sheet (1 to 8, 21) or a machine (9, 13, 14, 16 to 19),
 * in 13 and 14 also 255 for a wrong length; in 10, 11, 12, 15 and 20 it is 0.
 */
#ifndef DUTY_H
#define DUTY_H

#include <stddef.h>
#include <stdint.h>

#ifdef __cplusplus
extern "C" {
#endif

/* The longest sheet that is accepted, in bytes, and the longest clean one. */
#define DUTY_SHEET_MAX 7732
#define DUTY_CLEAN_MAX 6196

/* The longest plan that planning writes. */
#define DUTY_PLAN_MAX 32928

/* The longest plan in shape, be it written by planning or not, that the next
 * command accepts. */
#define DUTY_FOREIGN_PLAN_MAX 131184

/* The least scratch of planning; a longer one is taken as well. */
#define DUTY_SCRATCH 512

/* More stack than any call took where that was measured: on x86-64, by
 * compare/tests/memory.rs. */
#define DUTY_STACK 16384

/* The longest state that is accepted, two bytes for each machine: its mode, then
 * its tag. The tag is 1 while nobody may move the machine, else 0. */
#define DUTY_STATE_MAX 64

/* The longest wish that is accepted, a byte for each machine. */
#define DUTY_WISH_MAX 32

/* The most wishes that are joined. */
#define DUTY_WISHES_MAX 8

/* The longest text of a picture, and the most bytes that it is read as. */
#define DUTY_GRAPH_MAX 7273
#define DUTY_GRAPH_READ_MAX 1025

/* Stands for the number of a move where a command changes nothing. */
#define DUTY_NO_MOVE 255

/* The refusal's number, 0 if there is none. */
static inline uint32_t duty_refusal(uint64_t reply) { return (uint32_t)(reply >> 32); }

/* The place of a refusal, or the value of an accepted call. */
static inline uint32_t duty_value(uint64_t reply) { return (uint32_t)reply; }

/* The move of an accepted duty_apply: its number, or DUTY_NO_MOVE. */
static inline uint8_t duty_move(uint64_t reply) { return (uint8_t)duty_value(reply); }

/* Where a state has the mode of a machine, and where its tag. */
static inline size_t duty_mode_at(uint8_t machine) { return 2 * (size_t)machine; }
static inline size_t duty_tag_at(uint8_t machine) { return 2 * (size_t)machine + 1; }

/* Checks a sheet (refusals 1 to 8 and 21). Value: 256 * moves + machines. */
uint64_t duty_sheet(const uint8_t *sheet, size_t n);

/* How long the plan of a sheet is (refusals 1 to 8 and 21, 9, 10). Value: bytes
 * of the plan. */
uint64_t duty_plan_length(const uint8_t *sheet, size_t n);

/* Writes a sheet's plan (refusals 1 to 8 and 21, 9 to 12): plan_n must be the plan's
 * length, scratch_n DUTY_SCRATCH or more, and all of the scratch is left zero. A plan
 * that was written while moves that are never usable still counted may have a larger
 * bound than is written now; it can be followed as before. Value: 0. */
uint64_t duty_plan(const uint8_t *sheet, size_t n, uint8_t *plan, size_t plan_n,
                   uint8_t *scratch, size_t scratch_n);

/* The next command toward a wish, for any plan whose shape fits the sheet
 * (refusals 1 to 8 and 21, 15, 13, 14, 16 to 18, then 15 for an entry that cannot
 * be followed, or whose move is not usable by the routes that the plan shows). 13
 * names the first machine with a mode that it does not have or a tag above 1. 16
 * looks at each group that is not as wished and at those that it needs, directly or
 * through others, 18 at the latter; usable moves alone make a group need another.
 * 16 also stands for a tag on a machine there, even if the machine is as needed: no
 * command is ever sent to a tagged machine. All bytes are only read. Value: 0 for
 * done, else 65536 + 256 * machine + command. */
uint64_t duty_next(const uint8_t *sheet, size_t n, const uint8_t *plan, size_t plan_n,
                   const uint8_t *state, size_t state_n, const uint8_t *wish, size_t wish_n);

/* Applies a command (refusals 1 to 8 and 21, 13): the new mode of a machine that
 * changes is written into the lent state. A tagged machine does not change, and
 * no tag is ever written. Value: 256 + move if a machine changed, else
 * DUTY_NO_MOVE; duty_move takes the move out of it. Moves are numbered from 0 in
 * the sheet's order, as its amendments leave them. */
uint64_t duty_apply(const uint8_t *sheet, size_t n, uint8_t *state, size_t state_n,
                    uint8_t machine, uint8_t command);

/* Joins wishes, each lent after a byte with its length, into one that a state
 * meets exactly if it meets each of them (refusals 1 to 8 and 21, 14, at 255 also for
 * one wish too many or one cut short, 19, 12 if out is too short). The joined
 * wish is as long as the longest and stands at the front of out; the bytes
 * behind it stay. Value: the length of the joined wish. */
uint64_t duty_join(const uint8_t *sheet, size_t n, const uint8_t *wishes, size_t wishes_n,
                   uint8_t *out, size_t out_n);

/* Draws who needs whom in the language of Graphviz: the sheet's groups, and an
 * edge to each from each other group that its moves name (refusals 1 to 8 and 21, 12 if
 * out is too short). The text stands at the front of out, with no zero behind it;
 * the bytes there stay. docs/GRAPH.md has its layout. Value: the length of the
 * text, at most DUTY_GRAPH_MAX. */
uint64_t duty_graph(const uint8_t *sheet, size_t n, uint8_t *out, size_t out_n);

/* Reads the text of a picture (refusals 20 unless it is, to the byte, what
 * duty_graph writes of some sheet, then 12 if out is too short). At the front of
 * out stand the machine count, each machine's group, then source and target of
 * each edge in order; the bytes behind them stay. Value: how many bytes these
 * are, at most DUTY_GRAPH_READ_MAX. */
uint64_t duty_graph_read(const uint8_t *text, size_t n, uint8_t *out, size_t out_n);

/* Writes the clean sheet of one that may have amendments: its machines, its
 * standing moves and the end (refusals 1 to 8 and 21, 12 if out is too short). It
 * stands at the front of out; the bytes behind it stay. Every call replies the same
 * of both sheets. Value: the length of the clean sheet, at most DUTY_CLEAN_MAX. */
uint64_t duty_clean(const uint8_t *sheet, size_t n, uint8_t *out, size_t out_n);

#ifdef __cplusplus
}
#endif

#endif
