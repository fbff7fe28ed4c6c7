/* The simplicial path finder and the shelf of sheets for programs in C and C++. Document 01 and the customer's requests
 * fix every result, and the numbers of refusals are theirs; the promises below are proved (docs/ARCHITECTURE.md says
 * where).
 *
 * Each array is lent for the time of the call; its pointer is not null, even at length 0, and it overlaps no array
 * that is written to. A call writes only to what is lent without `const`, at the front; what stands behind stays. A
 * refusal writes nothing, except that number 9 gives the places and 16 the places and a position, and that a slip
 * which is refused has a sheet too. No call keeps anything or fails to return.
 *
 * The words:
 *
 * - N is the number of blocks: in a game, of players. Block j has a size s_j, how many indices it has: in a game, the
 *   player's strategies. Indices are numbered through from 1 to m, the sum of the sizes; n is m - N.
 * - Block j has a division d_j. A grid point has m numbers, those of block j adding up to d_j; it stands for the mix in
 *   which index h of block j has the weight number / d_j. P is the number of grid points: the product over the blocks
 *   of "d_j + s_j - 1 choose s_j - 1".
 * - The grid points are listed in rising lexicographic order, first number first, and positions count from 0. A label
 *   table has one byte for each grid point in this order: an index, or 0 where the label is not yet known.
 * - A loss table goes player by player, then by the player's own strategy, then by the strategies of the opponents in
 *   lexicographic order, the first opponent's changing last: N times the product of the sizes.
 * - A place is a simplex that the path visits, with 1 to n + 1 points; {v}, the start alone, is the first. U has the
 *   indices at which all its points have 0, T those at which 1 is added on the way from its first point to its last.
 *   That way is the rising coefficient sum: coefficients c have y_h = v_h + c_h - c_(h + 1), round the block.
 * - A vertex is a point of the complete simplex where the path ends: the last place itself at a place end, that place
 *   less one point at a facet end. Complete for a block: each index of it is a vertex's label or in U.
 * - The bound is P times 1 + m + m(m - 1) + .., n + 1 terms: no path has more places. */
#ifndef LEVERETPLATE_H
#define LEVERETPLATE_H

#include <stddef.h>
#include <stdint.h>

#ifdef __cplusplus
extern "C" {
#endif

#define LEVERETPLATE_VERSION 3  /* of this interface; CHANGELOG.md says what changed */
#define LEVERETPLATE_FACTS 5    /* places, labels read, kind of end (0 place, 1 facet), block, vertices */
#define LEVERETPLATE_LEVELS 8   /* the most levels of a refinement */
#define LEVERETPLATE_NEAR 2     /* the nearest vertex's position, how many positions are listed */
#define LEVERETPLATE_PLACE 4    /* how many points, T, U, labels read */
#define LEVERETPLATE_POINTS 256 /* room for the numbers of any place's points */
#define LEVERETPLATE_SHEET 4096 /* room for any sheet */
#define LEVERETPLATE_SHELF 1000 /* the most sheets on a shelf */

/* A refusal is the number of the first question that is answered no. 0 is none. */
enum leveretplate_refusal {
    /* Is the number of blocks from 1 to 6? */
    LEVERETPLATE_REFUSED_BLOCKS = 1,
    /* Is each size at least 2, with at most 16 indices in all? */
    LEVERETPLATE_REFUSED_SIZES = 2,
    /* Is there a division for each block, each at least 1? */
    LEVERETPLATE_REFUSED_DIVISIONS = 3,
    /* Are there at most 60,000 grid points? */
    LEVERETPLATE_REFUSED_GRID_POINTS = 4,
    /* Has the start a number for each index, each block adding up to its division? */
    LEVERETPLATE_REFUSED_START = 5,
    /* Has the label table one label for each grid point? */
    LEVERETPLATE_REFUSED_TABLE_LENGTH = 6,
    /* Is every label an index of the grid, or 0 for a label that is not yet known? */
    LEVERETPLATE_REFUSED_LABELS = 7,
    /* Has the answer buffer room for the largest simplex, and a list of positions room for every grid point? */
    LEVERETPLATE_REFUSED_ANSWER_ROOM = 8,
    /* Has the path ended within the budget? */
    LEVERETPLATE_REFUSED_BUDGET = 9,
    /* Has the loss table a loss for each player and profile? */
    LEVERETPLATE_REFUSED_LOSSES_LENGTH = 10,
    /* Is each loss from 1 to 1,000? */
    LEVERETPLATE_REFUSED_LOSSES = 11,
    /* Has the label buffer one byte for each grid point? */
    LEVERETPLATE_REFUSED_LABEL_BUFFER = 12,
    /* Are map, number of blocks, sizes and divisions there, with one of the tables announced and no unknown bit? */
    LEVERETPLATE_REFUSED_SLIP = 13,
    /* Are the remaining bytes of the slip exactly the fields announced? */
    LEVERETPLATE_REFUSED_FIELDS = 14,
    /* Is the game 1, 2 or 3, with these sizes? */
    LEVERETPLATE_REFUSED_GAME = 15,
    /* Are the labels known that the path needs? */
    LEVERETPLATE_REFUSED_UNKNOWN_LABEL = 16,
    /* Has the trail buffer room for the trail? Of a reader: is there such a record, each up to it that of a move? */
    LEVERETPLATE_REFUSED_TRAIL = 17,
    /* Is the factor from 2 to 10, and the number of levels from 1 to 8? */
    LEVERETPLATE_REFUSED_LEVELS = 18,
    /* Are the points at least one, whole, not more than the largest simplex has, and on the grid? */
    LEVERETPLATE_REFUSED_POINTS = 19,
    /* Is the walk at a place, come from one linked to it, with places from 1 to the bound, and the table's labels? */
    LEVERETPLATE_REFUSED_WALK = 20,
    /* Is this a shelf, on which each sheet replaces at most one earlier sheet that no other replaces? */
    LEVERETPLATE_REFUSED_SHELF = 21,
    /* Is there room for one more sheet among the 1,000? */
    LEVERETPLATE_REFUSED_SHELF_ROOM = 22,
    /* Is the sheet on the shelf and, to be replaced, not yet replaced? */
    LEVERETPLATE_REFUSED_SHELVED_SHEET = 23
};

/* Follows the path. At an end answers 0, writes the five facts, and the vertices in rising coefficient sum, m
 * numbers each, to the answer buffer. The labels read are 1 plus the moves by which a point came in. Else answers
 * the refusal's number, 1 to 9 or 16. With number 9 the first fact is the places visited, and the others stay. With
 * number 16 a place within the budget needs a label that is 0, not yet known: the first fact is the places visited
 * before it, the second the label's position in the table, from 0, and the others stay. `facts` has
 * LEVERETPLATE_FACTS numbers. */
uint8_t leveretplate_run(const uint8_t *sizes, size_t sizes_length,
                         const uint16_t *divisions, size_t divisions_length,
                         const uint16_t *start, size_t start_length,
                         const uint8_t *labels, size_t labels_length,
                         uint16_t *answer, size_t answer_length,
                         uint64_t budget,
                         uint64_t *facts);

/* Follows the path as leveretplate_run does, with the same answer, facts and vertices, and reports where it came
 * nearest to the grid point w. The distance of two points is the sum over all indices of the absolute coordinate
 * difference times the product of the other blocks' divisions. At an end the two numbers of `near` are the position
 * in the table, from 0, of the visited vertex nearest to w, of equally near ones the one met first, and how many
 * visited vertices are at most at the given distance from w; their positions stand at the front of the list, each
 * once, in order of first visit. Question 5 is put for w too, and 8 for a list of at least P positions. With every
 * refusal, 9 and 16 included, `near`, the answer buffer and the list are as before. `facts` has LEVERETPLATE_FACTS
 * numbers, `near` LEVERETPLATE_NEAR. */
uint8_t leveretplate_nearest(const uint8_t *sizes, size_t sizes_length,
                             const uint16_t *divisions, size_t divisions_length,
                             const uint16_t *start, size_t start_length,
                             const uint8_t *labels, size_t labels_length,
                             uint16_t *answer, size_t answer_length,
                             uint64_t budget,
                             const uint16_t *w, size_t w_length,
                             uint64_t distance,
                             uint16_t *list, size_t list_length,
                             uint64_t *facts,
                             uint64_t *near);

/* Follows the path as leveretplate_run does, with the same answer, facts and vertices, and writes its trail: one
 * record for each place, the first that of the start. A record is a bit map byte and then the fields whose bit
 * stands, in bit order: 0 the point come in and 1 the point gone out, each its position in the table in 16 bits, low
 * byte first; 2 the index into T, 3 out of T, 4 into U, 5 out of U and 6 the rule, a byte each. At an end `bytes` is
 * the number of bytes written to the front of the trail buffer, at most 3 + 7 times (places - 1). Answers 17 where a
 * run that ended has a trail longer than the trail buffer; this is asked behind 9 and 16. With every refusal, 9, 16
 * and 17 included, `bytes`, the answer buffer and the trail buffer are as before. `facts` has LEVERETPLATE_FACTS
 * numbers. */
uint8_t leveretplate_run_with_trail(const uint8_t *sizes, size_t sizes_length,
                                    const uint16_t *divisions, size_t divisions_length,
                                    const uint16_t *start, size_t start_length,
                                    const uint8_t *labels, size_t labels_length,
                                    uint16_t *answer, size_t answer_length,
                                    uint64_t budget,
                                    uint8_t *trail, size_t trail_length,
                                    uint64_t *facts,
                                    uint64_t *bytes);

/* Rebuilds the place at a record of a trail, the records counted from 1, and answers 0: `place` has the number of
 * points, T and U, sets of indices as masks in which bit h stands for index h + 1, and the labels read up to that
 * place; `points` has the points in rising coefficient sum, m numbers each, at its front, with its old contents
 * behind. Over a run's trail record i gives the path's place i. Only the records up to the one asked for are looked
 * at, and no label table. Else answers the refusal's number, 1 to 5, or 17 where there is no such record, or the
 * records up to it do not begin with the start's, or one of them is not exactly the record of a change from its
 * place to a set of points that meets the first two conditions of a place, by one of the seven rules; and writes
 * nothing. `points` has LEVERETPLATE_POINTS numbers, `place` LEVERETPLATE_PLACE. */
uint8_t leveretplate_read_trail(const uint8_t *sizes, size_t sizes_length,
                                const uint16_t *divisions, size_t divisions_length,
                                const uint16_t *start, size_t start_length,
                                const uint8_t *trail, size_t trail_length,
                                uint64_t record,
                                uint16_t *points,
                                uint64_t *place);

/* Writes the labels of the game with these losses and their count P, and answers 0; else answers the refusal's
 * number, 1 to 4 or 10 to 12. */
uint8_t leveretplate_label(const uint8_t *sizes, size_t sizes_length,
                           const uint16_t *divisions, size_t divisions_length,
                           const uint16_t *losses, size_t losses_length,
                           uint8_t *labels, size_t labels_length,
                           uint64_t *count);

/* Writes the boundary table of an old table, `old`, which is not altered, and its count of bytes P, and answers 0: a
 * point with no 0 among its numbers keeps its old label, 0 too, and every other point gets the label of rule (1.3),
 * the first index whose number is 0 and whose number before it, round the block, is positive. Else answers the
 * refusal's number, 1 to 4, 6 or 7, which are asked of the old table, or 12. Every end that leveretplate_run
 * announces on a table so written is a place end. */
uint8_t leveretplate_boundary(const uint8_t *sizes, size_t sizes_length,
                              const uint16_t *divisions, size_t divisions_length,
                              const uint8_t *old, size_t old_length,
                              uint8_t *labels, size_t labels_length,
                              uint64_t *count);

/* Runs the game with these losses on `levels` grids, from 1 to 8. Level i, counted from 0, has k to the i times the
 * divisions, k being `factor`, from 2 to 10; the first starts at `start`, each next one at k times the first vertex
 * of the end before, and each has its bound as budget, so that every level ends. Answers 0; writes five facts for
 * each level, one level behind the other, as leveretplate_run does at an end; writes the vertices of level i to the
 * answer buffer from i times (n + 1) times m on, and the last level's labels to `labels`, which has exactly its P
 * bytes. Numbers of the answer buffer between the levels and behind them stay, and so do facts behind the last
 * level. Else answers the refusal's number, 18, 1 to 4 of any level, 5, 10, 11, 12 or 8, put in this order. `facts`
 * has LEVERETPLATE_LEVELS times LEVERETPLATE_FACTS numbers. */
uint8_t leveretplate_refine(const uint8_t *sizes, size_t sizes_length,
                            const uint16_t *divisions, size_t divisions_length,
                            const uint16_t *start, size_t start_length,
                            const uint16_t *losses, size_t losses_length,
                            size_t factor,
                            size_t levels,
                            uint8_t *labels, size_t labels_length,
                            uint16_t *answer, size_t answer_length,
                            uint64_t *facts);

/* Says of points, m numbers each one after another and in any order, whether they are distinct, belong to one
 * simplex of the Q triangulation and are complete: 256 times the first block for which they are, counted from 1; 0
 * where they are not; or the refusal's number, 1 to 4, 6, 7 or 19. A label 0 stands for no index. Writes nothing. */
uint16_t leveretplate_check(const uint8_t *sizes, size_t sizes_length,
                            const uint16_t *divisions, size_t divisions_length,
                            const uint8_t *labels, size_t labels_length,
                            const uint16_t *points, size_t points_length);

/* Writes the sheet of a slip, a refusal's sheet too, and answers its length. `sheet` has LEVERETPLATE_SHEET bytes. */
size_t leveretplate_sheet(const uint8_t *slip, size_t slip_length, uint8_t *sheet);

/* A shelf is a list and the count of sheets filed, numbered from 1. The entry of sheet i, list[i - 1], is the number
 * of the earlier sheet that it replaces, or 0; entries behind the count are neither read nor changed, except that
 * filing writes the first of them. */

/* Files a sheet that replaces sheet `named`, or none if that is 0: writes list[count] and to `filed` the new count, and
 * answers 0. Else answers the refusal's number: 21 for no shelf, 22 for a full one, 23 for a sheet that is not on it or
 * already replaced. */
uint8_t leveretplate_file(uint16_t *list, size_t list_length, size_t count, size_t named, size_t *filed);

/* Writes the current one of a sheet, reached by going from each to the sheet that replaces it, to `last`, and
 * answers 0. Else answers the refusal's number: 21 for no shelf, 23 for a sheet that is not on it. */
uint8_t leveretplate_current(const uint16_t *list, size_t list_length, size_t count, size_t sheet, size_t *last);

/* A walk is lent and moved on by one place with each call. A place is kept as its first point, the indices of T from
 * 0 in the order in which each point goes to the next, and the count of its points; what stands behind is 0, and 0
 * points with nothing but 0 are no place. At the front of each array of a walk stand the numbers of the blocks or of
 * the indices. A walk carries the labels of the present place's points in their order, 0 behind. Two walks are the
 * same exactly if these numbers are, of sizes, divisions and start those at the front. */
struct leveretplate_place {
    uint16_t first[16];
    uint32_t order[16];
    uint8_t count;
};

struct leveretplate_walk {
    uint64_t places, labels_read; /* so far */
    struct leveretplate_place present, before;
    uint16_t start[16], divisions[6];
    uint8_t sizes[6], blocks, carried[16];
};

/* A walk, and behind it what the last call on it has answered. Every call below writes all of what stands behind the
 * walk: 0 where it says nothing. */
struct leveretplate_answered {
    struct leveretplate_walk walk;
    uint64_t vertices;     /* of an end, or points of a place */
    uint32_t fields[6];    /* of a move that is shown: point in, point out (positions from 0), then from 1 the index
                            * into T, out of T, into U, out of U */
    uint16_t simplex[256]; /* m numbers for each vertex or point in rising coefficient sum */
    uint8_t number;        /* the refusal's number, or 0 */
    uint8_t kind;          /* of an end: 0 place, 1 facet */
    uint8_t block;         /* of an end, from 1; 0 where there is none */
    uint8_t rule;          /* of a move, 1 to 7; 0 where there is none */
    uint8_t map;           /* bit b stands exactly if field b is there */
};

/* Makes the walk at {v}, with none before it, 1 as its places so far and its labels read, and the table's label of
 * v. Else the number is the refusal's, 1 to 7, and the walk stays. */
void leveretplate_walk_at_start(struct leveretplate_answered *answered,
                                const uint8_t *sizes, size_t sizes_length,
                                const uint16_t *divisions, size_t divisions_length,
                                const uint16_t *start, size_t start_length,
                                const uint8_t *labels, size_t labels_length);

/* Moves the walk on by one place and tells the rule. At an end tells its kind, block and simplex, and the walk
 * stays. Else the number is the refusal's, and the walk stays: 1 to 7, asked of the walk's own grid and start and of
 * the table; 20, where the present place is not a place, or the one before it not linked to it, or only one of "it
 * is {v}" and "it has none before it" holds, or the places so far are not from 1 to the bound, or the labels that it
 * carries are not the table's, 0 included, or its labels read not from 1 to its places; 16, where a point of the
 * present place has label 0. Any numbers may stand in the walk. */
void leveretplate_move_on(struct leveretplate_answered *answered, const uint8_t *labels, size_t labels_length);

/* Shows the move before it is made: the answer that leveretplate_move_on would give, and of a move the map and the
 * fields of the trail's record. The walk stays. */
void leveretplate_preview(struct leveretplate_answered *answered, const uint8_t *labels, size_t labels_length);

/* Gives the number of the present place's points and the points. Else the number is the refusal's, 1 to 7, or 20
 * where it is not a place over the table. The walk stays. */
void leveretplate_walk_points(struct leveretplate_answered *answered, const uint8_t *labels, size_t labels_length);

#ifdef __cplusplus
}
#endif

#endif
