/* Engkarupi: islands, conflict-free groups, bindings and turns of a frame of bodies and constraints, and test lifts from a
 * number, proved.
 *
 * A port of parts of nepridumalnik/Kapitsa-Physics, commit 2c13ed98e8, MIT licence: see NOTICE.
 *
 * Link libboundary.a (`rt lib` in crates/boundary writes it to out/ there). docs/LANES.md says what the lanes do with the
 * turns, what to do on a refusal, and what the archive asks of the machine and the stack.
 *
 * No call allocates, keeps a pointer or has state of its own: all memory is lent by the caller for the length of the call.
 * No two tables of one call may overlap, and none may overlap what is read. Every pointer must be aligned as its C type, and
 * valid for a length of 0 too. A length is in elements. A table may be longer than asked for; the length asked for is in its
 * comment.
 *
 * B bodies, M manifolds (touching pairs), J joints; C is a number of constraints. A pair list holds a, b, a, b, ..; a
 * disabled joint (enabled byte 0) may carry any endpoints.
 *
 * Body types: 0 static, 1 kinematic, 2 dynamic, 3 logged: a kinematic drum with a log of its line pull, which the solver
 * writes. Of the four only dynamic bodies connect and give an island. Dynamic and logged bodies make conflicts: no two
 * constraints of one group are on one of them.
 *
 * WARNING: ISLANDS ARE SOLVED ONE AFTER ANOTHER. Two islands never have a dynamic body in common, but they may have a logged
 * one, since it connects nothing. Two lanes in two islands at once could then both write it. See engkarupi_run.
 *
 * A call that can be refused answers 0 or the number of the first question that got a "no":
 *    1  the file's first byte is not 1 or 2
 *    2  fewer than 11 bytes, or the length field is not the number of bytes after it
 *    3  more than 4,096 bodies, manifolds or joints (a coloring: 4,096 bodies, 8,192 constraints)
 *    4  lengths that do not agree: an odd pair list, not one enabled byte a joint, counts that do not make the endpoints, a
 *       file's length field
 *    5  a type above 3, an enabled byte or flag above 1, a count that is not 2 to 4; a take of other than 2 to 4 positions
 *    6  a lent table is too short
 *    7  a live constraint whose endpoints are not all different and below B
 *    8  a body list that does not rise strictly below B
 *    9  two positions that are equal, or one that is not below the binding's count and 4,096
 *   10  the body at the lowest position is gone
 *   11  the body at a higher position is gone; bodies that were held at the lower ones are now taken
 *   12  there is no such constraint
 *   13  fewer than two bodies for a pair that is wanted
 * Refusals 1 to 6, 8 to 10, 12 and 13 change no lent table; a refused bind still writes its empty binding.
 */
#ifndef ENGKARUPI_H
#define ENGKARUPI_H

#include <stddef.h>
#include <stdint.h>

#ifdef __cplusplus
extern "C" {
#endif

#define ENGKARUPI_NONE 65535        /* the label of what has no island */
#define ENGKARUPI_MAX_BODIES 4096
#define ENGKARUPI_MAX_MANIFOLDS 4096
#define ENGKARUPI_MAX_JOINTS 4096
#define ENGKARUPI_MAX_PAIRS 8192
#define ENGKARUPI_MAX_ENDS 24576    /* endpoints of a frame: two a manifold, four a joint */
#define ENGKARUPI_MAX_FILE 61451    /* bytes of the longest frame */

/* ---- islands: which bodies are connected by live constraints between dynamic bodies
 *
 * Answers 0, 3, 4, 5, 6 or 7. After 0 a label is an island's number or ENGKARUPI_NONE, and *island_count is how many
 * islands there are. After 7 all labels are ENGKARUPI_NONE, each parent is itself and each size is 1. After any refusal
 * *island_count is 0. A longer table keeps what stands past the length in its comment.
 *
 * Connected bodies are one set; any other body, of whatever type, is a set of its own. After 0, following the parents from a
 * body ends at the root of its set, and a root's size is its set's number of bodies; the other sizes hold nothing. The root
 * is found constraint by constraint, manifolds first: where a live one between dynamic bodies joins two sets, the root of the
 * larger set stays, of equal ones the lower root. So it need not be the lowest body, and a link may rise. 2 to the number of
 * links from a body to its root is at most the set's number of bodies.
 */
uint8_t engkarupi_islands(
    const uint8_t *types, size_t types_len,                     /* B */
    const uint16_t *manifolds, size_t manifolds_len,            /* 2 * M */
    const uint16_t *joints, size_t joints_len,                  /* 2 * J */
    const uint8_t *enabled, size_t enabled_len,                 /* J, each 0 or 1 */
    uint16_t *parents, size_t parents_len,                      /* B */
    uint16_t *sizes, size_t sizes_len,                          /* B */
    uint16_t *body_islands, size_t body_islands_len,            /* B */
    uint16_t *manifold_islands, size_t manifold_islands_len,    /* M */
    uint16_t *joint_islands, size_t joint_islands_len,          /* J */
    uint16_t *island_count);

/* The same where a joint has two to four bodies: joint j has joint_counts[j] endpoints, and the endpoints stand joint after
 * joint without gaps. A live joint connects all its dynamic endpoints, whatever the others are: its first dynamic one is
 * joined with each other, in their order. Question 4 takes the counts as they stand, and comes before 5.
 */
uint8_t engkarupi_islands_multi(
    const uint8_t *types, size_t types_len,                     /* B */
    const uint16_t *manifolds, size_t manifolds_len,            /* 2 * M */
    const uint16_t *joint_ends, size_t joint_ends_len,          /* the sum of joint_counts */
    const uint8_t *joint_counts, size_t joint_counts_len,       /* J, each 2 to 4 */
    const uint8_t *enabled, size_t enabled_len,                 /* J, each 0 or 1 */
    uint16_t *parents, size_t parents_len,                      /* B */
    uint16_t *sizes, size_t sizes_len,                          /* B */
    uint16_t *body_islands, size_t body_islands_len,            /* B */
    uint16_t *manifold_islands, size_t manifold_islands_len,    /* M */
    uint16_t *joint_islands, size_t joint_islands_len,          /* J */
    uint16_t *island_count);

/* ---- groups: a plan of conflict-free groups of constraints
 *
 * A plan is these four numbers and the tables that its updates are lent. A fresh plan is all 0 and remembers two empty
 * lists; what stands in its tables does not matter.
 */
enum {
    ENGKARUPI_PLAN_BODIES,
    ENGKARUPI_PLAN_CONSTRAINTS,
    ENGKARUPI_PLAN_GROUPS,
    ENGKARUPI_PLAN_LARGEST,         /* members of the largest group */
    ENGKARUPI_PLAN_NUMBERS
};

/* Answers 0, 3, 4, 5, 6 or 7. After 0, *changed is 1 if the input differs from what the plan remembers: then the plan and
 * its tables are built anew. Otherwise *changed is 0 and nothing else is written. The tables marked free hold nothing
 * afterwards. Between the updates of one plan nobody else may write its other tables.
 *
 * Group k has its members in colored_constraints from color_offsets[k] to color_offsets[k + 1], rising, and its bodies in
 * color_bodies from color_body_offsets[k] to color_body_offsets[k + 1], rising. Constraint i has the places of its two
 * endpoints among its group's bodies in constraint_body_positions[2 * i] and [2 * i + 1].
 */
uint8_t engkarupi_update(
    size_t plan[ENGKARUPI_PLAN_NUMBERS],
    const uint8_t *flags, size_t flags_len,                     /* B: 1 for a dynamic or logged body, else 0 */
    const uint16_t *pairs, size_t pairs_len,                    /* 2 * C */
    uint8_t *dynamic_bodies, size_t dynamic_bodies_len,         /* B */
    uint16_t *endpoints, size_t endpoints_len,                  /* 2 * C */
    uint16_t *body_offsets, size_t body_offsets_len,            /* B + 1, free */
    uint16_t *body_constraints, size_t body_constraints_len,    /* 2 * C, free */
    uint16_t *scratch_offsets, size_t scratch_offsets_len,      /* the larger of B and C, free */
    uint16_t *constraint_colors, size_t constraint_colors_len,  /* C */
    uint16_t *color_stamps, size_t color_stamps_len,            /* C, free */
    uint16_t *body_stamps, size_t body_stamps_len,              /* B, free */
    uint16_t *color_offsets, size_t color_offsets_len,          /* C + 1 */
    uint16_t *colored_constraints, size_t colored_constraints_len,              /* C */
    uint16_t *color_body_offsets, size_t color_body_offsets_len,                /* C + 1 */
    uint16_t *color_bodies, size_t color_bodies_len,                            /* 2 * C */
    uint16_t *constraint_body_positions, size_t constraint_body_positions_len,  /* 2 * C */
    uint8_t *changed);

/* The members, and the bodies, of a group: answers how many, and *start is where they start in their table. Answers 0, with
 * *start 0, if there is no such group or its offsets do not lie in order inside the table.
 */
size_t engkarupi_members(
    const size_t plan[ENGKARUPI_PLAN_NUMBERS],
    const uint16_t *color_offsets, size_t color_offsets_len,
    const uint16_t *colored_constraints, size_t colored_constraints_len,
    size_t group,
    size_t *start);

size_t engkarupi_bodies(
    const size_t plan[ENGKARUPI_PLAN_NUMBERS],
    const uint16_t *color_body_offsets, size_t color_body_offsets_len,
    const uint16_t *color_bodies, size_t color_bodies_len,
    size_t group,
    size_t *start);

/* The positions of a constraint, a's then b's. Answers 0, 3, 6 or 12; after a refusal both are 0. */
uint8_t engkarupi_positions(
    const size_t plan[ENGKARUPI_PLAN_NUMBERS],
    const uint16_t *constraint_body_positions, size_t constraint_body_positions_len,   /* 2 * plan[ENGKARUPI_PLAN_CONSTRAINTS] */
    size_t constraint,
    uint16_t places[2]);

/* ---- the same of constraints that have a count each: 2 to 4 endpoints, constraint after constraint without gaps
 *
 * A plan with counts is four numbers too, and its tables with one more: the counts that it remembers, where another number
 * than 2 to 4 is read as 2. engkarupi_members and engkarupi_bodies serve it as they stand. E is the number of endpoints.
 * Equal endpoints by other counts are other input. The positions of constraint i stand where its endpoints stand.
 */
uint8_t engkarupi_update_multi(
    size_t plan[ENGKARUPI_PLAN_NUMBERS],
    const uint8_t *flags, size_t flags_len,                     /* B: 1 for a dynamic or logged body, else 0 */
    const uint16_t *ends, size_t ends_len,                      /* E, the sum of counts_in */
    const uint8_t *counts_in, size_t counts_in_len,             /* C, each 2 to 4 */
    uint8_t *dynamic_bodies, size_t dynamic_bodies_len,         /* B */
    uint16_t *endpoints, size_t endpoints_len,                  /* E */
    uint8_t *counts, size_t counts_len,                         /* C */
    uint16_t *body_offsets, size_t body_offsets_len,            /* B + 1, free */
    uint16_t *body_constraints, size_t body_constraints_len,    /* E, free */
    uint16_t *scratch_offsets, size_t scratch_offsets_len,      /* the larger of B and C, free */
    uint16_t *constraint_colors, size_t constraint_colors_len,  /* C */
    uint16_t *color_stamps, size_t color_stamps_len,            /* C, free */
    uint16_t *body_stamps, size_t body_stamps_len,              /* B, free */
    uint16_t *color_offsets, size_t color_offsets_len,          /* C + 1 */
    uint16_t *colored_constraints, size_t colored_constraints_len,              /* C */
    uint16_t *color_body_offsets, size_t color_body_offsets_len,                /* C + 1 */
    uint16_t *color_bodies, size_t color_bodies_len,                            /* E */
    uint16_t *constraint_body_positions, size_t constraint_body_positions_len,  /* E */
    uint8_t *changed);

/* The positions of a constraint in the order of its endpoints, and how many. `counts` is the plan's table. Answers 0, 3, 6
 * or 12; places past the positions are 0, and after a refusal all are, and *count is 0.
 */
uint8_t engkarupi_positions_multi(
    const size_t plan[ENGKARUPI_PLAN_NUMBERS],
    const uint8_t *counts, size_t counts_len,                                   /* plan[ENGKARUPI_PLAN_CONSTRAINTS] */
    const uint16_t *constraint_body_positions, size_t constraint_body_positions_len,   /* the sum of these counts, as read */
    size_t constraint,
    uint16_t places[4],
    size_t *count);

/* ---- bindings: which bodies a group may take
 *
 * A binding is bodies, marks and a count. A mark is 0 (read-only), 1 (held) or another number (taken). It is plain memory:
 * one caller at a time takes from it.
 */

/* Binds a rising list of bodies: dynamic and logged ones are held, others read-only. All 4,096 places are written; those past
 * the count hold 0. Answers 0, 3, 5 or 8; a refused bind binds nothing.
 */
uint8_t engkarupi_bind(
    const uint8_t *types, size_t types_len,                     /* B */
    const uint16_t *indices, size_t indices_len,
    uint16_t bodies[4096],
    uint8_t marks[4096],
    size_t *count);

/* Takes the bodies at two positions, in the order asked: handed is a's body, 1 for dynamic (a held body, dynamic or logged) or
 * 0 for read-only, b's body, 1 or 0. Held bodies become taken; read-only ones may be taken again. Answers 0, 9, 10 or 11;
 * after a refusal all four are 0.
 */
uint8_t engkarupi_take(
    const uint16_t bodies[4096],
    uint8_t marks[4096],
    size_t count,
    size_t a,
    size_t b,
    uint16_t handed[4]);

/* Takes the bodies at 2 to 4 positions, in the order asked: handed is a body and 1 for dynamic or 0 for read-only, for each
 * position; past them it is 0. They are taken by rising position, so that a refusal keeps the lower ones taken. Answers 0, 5
 * (another number of positions), 9, 10 or 11; after a refusal handed is all 0.
 */
uint8_t engkarupi_take_multi(
    const uint16_t bodies[4096],
    uint8_t marks[4096],
    size_t count,
    const uint16_t *positions, size_t positions_len,            /* 2 to 4 */
    uint16_t handed[8]);

/* ---- the run: from the bytes of a file to the turns of its constraints
 *
 * The file, big-endian: the version; 32-bit length of the rest; B, M, J of 16 bits each; B type bytes; M pairs a, b of 16
 * bits; J joints. On version 1 a joint is a, b and an enabled byte; on version 2 it is an enabled byte, a count byte of 2 to
 * 4 and as many endpoints of 16 bits. The joints of version 2 are read in order: a wrong count is refused 5 when it is met,
 * an entry that is cut off, or bytes behind the last, 4; only then are types and enabled bytes asked. Manifold i has the
 * number i, joint j the number M + j. In the lengths below, C is M + J, and E is 2 * C on version 1, 2 * M + 4 * J on
 * version 2, whatever the counts are.
 */
enum {
    ENGKARUPI_REPORT_ISLANDS,
    ENGKARUPI_REPORT_TURNS,
    ENGKARUPI_REPORT_TAKES,         /* bodies handed as dynamic: dynamic and logged ones */
    ENGKARUPI_REPORT_DEGREE,        /* the most constraints with an island on one dynamic or logged body */
    ENGKARUPI_REPORT_NUMBERS
};

/* What a run is lent besides the frame: each table with its length. For frames of version 1 alone the three tables of
 * counts may have length 0.
 */
struct engkarupi_run_tables {
    uint16_t *parents; size_t parents_len;                      /* B */
    uint16_t *sizes; size_t sizes_len;                          /* B */
    uint16_t *body_islands; size_t body_islands_len;            /* B */
    uint16_t *manifold_islands; size_t manifold_islands_len;    /* M */
    uint16_t *joint_islands; size_t joint_islands_len;          /* J */
    uint16_t *turns; size_t turns_len;                          /* 3 * C */
    uint8_t *types; size_t types_len;                           /* B, free */
    uint8_t *flags; size_t flags_len;                           /* B, free */
    uint16_t *pairs; size_t pairs_len;                          /* E, free */
    uint16_t *island_pairs; size_t island_pairs_len;            /* E, free */
    uint8_t *counts; size_t counts_len;                         /* C on version 2, free; version 1 keeps it */
    uint8_t *island_counts; size_t island_counts_len;           /* the same */
    uint8_t *enabled; size_t enabled_len;                       /* J, free */
    uint16_t *numbers; size_t numbers_len;                      /* C, free */
    uint8_t *dynamic_bodies; size_t dynamic_bodies_len;         /* B, free */
    uint16_t *endpoints; size_t endpoints_len;                  /* E, free */
    uint8_t *plan_counts; size_t plan_counts_len;               /* as counts */
    uint16_t *body_offsets; size_t body_offsets_len;            /* B + 1, free */
    uint16_t *body_constraints; size_t body_constraints_len;    /* E, free */
    uint16_t *scratch_offsets; size_t scratch_offsets_len;      /* the larger of B and C, free */
    uint16_t *constraint_colors; size_t constraint_colors_len;  /* C, free */
    uint16_t *color_stamps; size_t color_stamps_len;            /* C, free */
    uint16_t *body_stamps; size_t body_stamps_len;              /* B, free */
    uint16_t *color_offsets; size_t color_offsets_len;          /* C + 1, free */
    uint16_t *colored_constraints; size_t colored_constraints_len;              /* C, free */
    uint16_t *color_body_offsets; size_t color_body_offsets_len;                /* C + 1, free */
    uint16_t *color_bodies; size_t color_bodies_len;                            /* E, free */
    uint16_t *constraint_body_positions; size_t constraint_body_positions_len;  /* E, free */
};

/* Each island in number order is colored on a fresh plan, each of its groups bound, and the group's members taken, rising.
 * A take is a turn: island, group, constraint number. Answers 0 or 1 to 7; after any refusal the report is all 0.
 *
 * After 0 the turns stand in the turn table from place 0, three places each, by rising island, then group, then constraint;
 * past them it keeps its content. Turns of one island and one group may be solved at once: no dynamic and no logged body is
 * on two of them. NOT AT ONCE: turns of different groups of one island, and turns of different islands; a logged body may be
 * on constraints of both islands. Only in a frame without a type 3 body may turns of different islands be solved at once.
 *
 * The island tables stand as engkarupi_islands leaves them. After 7 the turn table is kept, all labels are ENGKARUPI_NONE,
 * each parent is itself and each size is 1. Refusals 1 to 6 change no table. The tables marked free hold nothing after 0 or
 * 7, and what stands in them before does not matter.
 *
 * This is the call as it is linked, with the tables of struct engkarupi_run_tables in their order; engkarupi_run_on takes
 * the struct.
 */
uint8_t engkarupi_run(
    const uint8_t *frame, size_t frame_len,                     /* the file */
    uint16_t *parents, size_t parents_len,
    uint16_t *sizes, size_t sizes_len,
    uint16_t *body_islands, size_t body_islands_len,
    uint16_t *manifold_islands, size_t manifold_islands_len,
    uint16_t *joint_islands, size_t joint_islands_len,
    uint16_t *turns, size_t turns_len,
    uint8_t *types, size_t types_len,
    uint8_t *flags, size_t flags_len,
    uint16_t *pairs, size_t pairs_len,
    uint16_t *island_pairs, size_t island_pairs_len,
    uint8_t *counts, size_t counts_len,
    uint8_t *island_counts, size_t island_counts_len,
    uint8_t *enabled, size_t enabled_len,
    uint16_t *numbers, size_t numbers_len,
    uint8_t *dynamic_bodies, size_t dynamic_bodies_len,
    uint16_t *endpoints, size_t endpoints_len,
    uint8_t *plan_counts, size_t plan_counts_len,
    uint16_t *body_offsets, size_t body_offsets_len,
    uint16_t *body_constraints, size_t body_constraints_len,
    uint16_t *scratch_offsets, size_t scratch_offsets_len,
    uint16_t *constraint_colors, size_t constraint_colors_len,
    uint16_t *color_stamps, size_t color_stamps_len,
    uint16_t *body_stamps, size_t body_stamps_len,
    uint16_t *color_offsets, size_t color_offsets_len,
    uint16_t *colored_constraints, size_t colored_constraints_len,
    uint16_t *color_body_offsets, size_t color_body_offsets_len,
    uint16_t *color_bodies, size_t color_bodies_len,
    uint16_t *constraint_body_positions, size_t constraint_body_positions_len,
    size_t report[ENGKARUPI_REPORT_NUMBERS]);

/* engkarupi_run on a struct of tables. */
static inline uint8_t engkarupi_run_on(
    const uint8_t *frame, size_t frame_len,
    const struct engkarupi_run_tables *t,
    size_t report[ENGKARUPI_REPORT_NUMBERS])
{
    return engkarupi_run(
        frame, frame_len,
        t->parents, t->parents_len,
        t->sizes, t->sizes_len,
        t->body_islands, t->body_islands_len,
        t->manifold_islands, t->manifold_islands_len,
        t->joint_islands, t->joint_islands_len,
        t->turns, t->turns_len,
        t->types, t->types_len,
        t->flags, t->flags_len,
        t->pairs, t->pairs_len,
        t->island_pairs, t->island_pairs_len,
        t->counts, t->counts_len,
        t->island_counts, t->island_counts_len,
        t->enabled, t->enabled_len,
        t->numbers, t->numbers_len,
        t->dynamic_bodies, t->dynamic_bodies_len,
        t->endpoints, t->endpoints_len,
        t->plan_counts, t->plan_counts_len,
        t->body_offsets, t->body_offsets_len,
        t->body_constraints, t->body_constraints_len,
        t->scratch_offsets, t->scratch_offsets_len,
        t->constraint_colors, t->constraint_colors_len,
        t->color_stamps, t->color_stamps_len,
        t->body_stamps, t->body_stamps_len,
        t->color_offsets, t->color_offsets_len,
        t->colored_constraints, t->colored_constraints_len,
        t->color_body_offsets, t->color_body_offsets_len,
        t->color_bodies, t->color_bodies_len,
        t->constraint_body_positions, t->constraint_body_positions_len,
        report);
}

/* Memory for the tables of any frame that question 3 lets pass: 557,062 bytes, to be static and not on a stack. What stands
 * in it before a run does not matter.
 */
struct engkarupi_run_memory {
    uint16_t parents[ENGKARUPI_MAX_BODIES];
    uint16_t sizes[ENGKARUPI_MAX_BODIES];
    uint16_t body_islands[ENGKARUPI_MAX_BODIES];
    uint16_t manifold_islands[ENGKARUPI_MAX_MANIFOLDS];
    uint16_t joint_islands[ENGKARUPI_MAX_JOINTS];
    uint16_t turns[3 * ENGKARUPI_MAX_PAIRS];
    uint8_t types[ENGKARUPI_MAX_BODIES];
    uint8_t flags[ENGKARUPI_MAX_BODIES];
    uint16_t pairs[ENGKARUPI_MAX_ENDS];
    uint16_t island_pairs[ENGKARUPI_MAX_ENDS];
    uint8_t counts[ENGKARUPI_MAX_PAIRS];
    uint8_t island_counts[ENGKARUPI_MAX_PAIRS];
    uint8_t enabled[ENGKARUPI_MAX_JOINTS];
    uint16_t numbers[ENGKARUPI_MAX_PAIRS];
    uint8_t dynamic_bodies[ENGKARUPI_MAX_BODIES];
    uint16_t endpoints[ENGKARUPI_MAX_ENDS];
    uint8_t plan_counts[ENGKARUPI_MAX_PAIRS];
    uint16_t body_offsets[ENGKARUPI_MAX_BODIES + 1];
    uint16_t body_constraints[ENGKARUPI_MAX_ENDS];
    uint16_t scratch_offsets[ENGKARUPI_MAX_PAIRS];
    uint16_t constraint_colors[ENGKARUPI_MAX_PAIRS];
    uint16_t color_stamps[ENGKARUPI_MAX_PAIRS];
    uint16_t body_stamps[ENGKARUPI_MAX_BODIES];
    uint16_t color_offsets[ENGKARUPI_MAX_PAIRS + 1];
    uint16_t colored_constraints[ENGKARUPI_MAX_PAIRS];
    uint16_t color_body_offsets[ENGKARUPI_MAX_PAIRS + 1];
    uint16_t color_bodies[ENGKARUPI_MAX_ENDS];
    uint16_t constraint_body_positions[ENGKARUPI_MAX_ENDS];
};

/* The tables in that memory. */
static inline struct engkarupi_run_tables engkarupi_run_tables_in(struct engkarupi_run_memory *memory)
{
    struct engkarupi_run_tables t;
#define ENGKARUPI_LEND(name) t.name = memory->name; t.name##_len = sizeof memory->name / sizeof memory->name[0]
    ENGKARUPI_LEND(parents);
    ENGKARUPI_LEND(sizes);
    ENGKARUPI_LEND(body_islands);
    ENGKARUPI_LEND(manifold_islands);
    ENGKARUPI_LEND(joint_islands);
    ENGKARUPI_LEND(turns);
    ENGKARUPI_LEND(types);
    ENGKARUPI_LEND(flags);
    ENGKARUPI_LEND(pairs);
    ENGKARUPI_LEND(island_pairs);
    ENGKARUPI_LEND(counts);
    ENGKARUPI_LEND(island_counts);
    ENGKARUPI_LEND(enabled);
    ENGKARUPI_LEND(numbers);
    ENGKARUPI_LEND(dynamic_bodies);
    ENGKARUPI_LEND(endpoints);
    ENGKARUPI_LEND(plan_counts);
    ENGKARUPI_LEND(body_offsets);
    ENGKARUPI_LEND(body_constraints);
    ENGKARUPI_LEND(scratch_offsets);
    ENGKARUPI_LEND(constraint_colors);
    ENGKARUPI_LEND(color_stamps);
    ENGKARUPI_LEND(body_stamps);
    ENGKARUPI_LEND(color_offsets);
    ENGKARUPI_LEND(colored_constraints);
    ENGKARUPI_LEND(color_body_offsets);
    ENGKARUPI_LEND(color_bodies);
    ENGKARUPI_LEND(constraint_body_positions);
#undef ENGKARUPI_LEND
    return t;
}

/* ---- test lifts: the same frame on every unit from one seed
 *
 * State s becomes 1,664,525 * s + 1,013,904,223 modulo 2^32, from the seed on; a draw is the upper 16 bits of the new state.
 * In the file's order: a type is a draw modulo 3; a pair is a = draw modulo B, then b = (a + 1 + draw modulo (B - 1)) modulo
 * B; a joint's enabled byte is a further draw modulo 2. The seed and the sizes fix the frame.
 *
 * Answers 0, 3, 13 or 6: 3 is asked first, then 13, then 6. After 0 the frame stands in the file form (see the run) from
 * place 0, *length is its length, and the bytes past it are kept; engkarupi_run accepts it, given room. After a refusal all
 * bytes are kept and *length is 0.
 */
uint8_t engkarupi_generate(
    uint32_t seed,
    size_t bodies,
    size_t manifolds,
    size_t joints,
    uint8_t *frame, size_t frame_len,                           /* 11 + B + 4 * M + 5 * J */
    size_t *length);

#ifdef __cplusplus
}
#endif

#endif
