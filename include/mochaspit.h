/*
 * Mochaspit: the path that a train runs on, with its speed limits, grades and curves. For C99 and C++11.
 *
 * A path is a record of counts, mochaspit_path_tpc, and seven columns, struct mochaspit_columns, that the caller lends to each call and
 * keeps with the record. Links come from a link table, struct mochaspit_table, ten columns that calls only read. Records travel by value.
 * No call allocates, keeps a pointer, or has state of its own: calls on different columns may run at once.
 *
 * Units: metres, metres a second, kilograms, newtons, watts and radians, as doubles.
 *
 * Link with libcapi.a, which `rt lib` in crates/capi writes to its out (x86-64-v2, System V calling convention): -lcapi.
 * `tools/install PREFIX` installs header, archive and a pkg-config file. bindings/c/example.c is a program that uses it.
 *
 * The processor must round to nearest and keep subnormal numbers, as it does unless a program asks for something else; one that gcc links
 * with -ffast-math or -Ofast does ask, for subnormals as 0. Floating-point traps (feenableexcept) must be off: questions compute with
 * whatever is handed in. With a trap on, a call that would be refused with 8, or that is handed a NaN, may end the program with SIGFPE.
 *
 *
 * ANSWERS
 *
 * Every call puts its questions in a fixed order, each over the whole input before the next. The first one that is answered with no
 * gives the number of the answer, 0 for done; enum mochaspit_refusal has the numbers, mochaspit_text a text for each. Any numbers may be
 * handed in. A compiler with GNU C's attributes warns where an answer is not used.
 *
 * The place is, for 4 to 8 of mochaspit_extend, the first failing position in the list of links, from 0; for mochaspit_recalc_speeds
 * and mochaspit_reindex the index of the link point; for mochaspit_clear_each the position of the refused trim in the list; otherwise 0.
 *
 * A refused call leaves every column and every record as it came, and has 0 for each value that was asked for.
 *
 *
 * RECORDS
 *
 * A call that may change a path answers the path's record, done or refused. Keep that one and no other: columns and record belong
 * together, and no question finds out that a record is an older one. A record from before a recalculation that laid two limits, with
 * one speed point, is still answered yes to questions 1 and 2, although the columns have five points by now: mochaspit_posted_speed sees
 * the first and answers the top speed within both limits, and mochaspit_finish with that record overwrites the other four with zeros.
 *
 *
 * CALLS
 *
 * Each call that takes columns, a link table or a list is there twice. mochaspit_path_ and mochaspit_list_ calls take them as structs, so
 * that no column can stand in another one's place unless its field is named. They hand them to the flat functions below, which are the
 * archive's, take each column as two arguments, and have the same names without path_ or list_; there stands what each call does.
 *
 * The original's, under its names, mochaspit_point_ and mochaspit_strap_ standing for its types Point and Strap: mochaspit_new, _extend,
 * _clear, _finish, _recalc_speeds, _reindex, _calc_idx, _set_link_and_offset, and of both types _new, _calc_res, _res_coeff_front,
 * _res_net_front, _path_tpc_idx_front, _fix_cache, of the strap _res_coeff_back and _res_net_back; and a link's records, which are added:
 * mochaspit_link_grades, mochaspit_link_curves.
 * Calls of our own: mochaspit_posted_speed; and two that do in one what others do one by one, mochaspit_clear_each for mochaspit_clear,
 * mochaspit_strap_walk for mochaspit_strap_calc_res.
 *
 *
 * COLUMNS
 *
 * A column is a pointer and a length. The length is the number of entries, neither of records nor of bytes: 3 for one grade. It may be 0.
 * In the structs NULL is a column without entries, whatever its length says. The flat functions take no NULL, also where the length is 0.
 * A pointer must be aligned for its entries. Columns lent to be written must overlap neither each other nor anything that the same call
 * reads. Entries may hold anything, NaN included: a call refuses what it cannot use.
 *
 * A path's columns, with the entries of a record side by side. A column that is shorter than its bound is the bound, a longer one
 * does not raise it, and of two columns of one kind the shorter counts:
 *
 *   column     a record is                                            entries   records at most
 *   offsets    link point: offset                                        1           1,025
 *   numbers    link point: count of grades, of curves, of power
 *              limits, link number                                       4           1,025
 *   grades     offset, coefficient, net value                            3          16,384
 *   curves     offset, coefficient, net value                            3          16,384
 *   speeds     speed point: offset, speed                                2           4,096
 *   powers     power limit: start, end, power                            3           1,024
 *   districts  power limit: district number, 0 for none                  1           1,024
 *
 * Link k begins at link point k; the last link point is the path's end and has the last link's number (0 on a path without links).
 * The speed posted at an offset is that of the last speed point at or before it (mochaspit_posted_speed). A done call that may change
 * a path leaves zeros in every column from the counts to its end.
 *
 * The link table. Links are numbered from 1; the entries of number 0 belong to no link and may hold anything. Entries of link i:
 *
 *   links      11 entries from 11 * i on: own number (i), the next link, the other next one, the one before, the other one before
 *              (0 for none); first record and count of its elevations, of its headings and of its power limits in their pools
 *   lengths    1 entry: the length, above 0
 *   sets       48 entries from 48 * i on: eight places of six entries. Place 0 is the single set, place 1 + T the set for train
 *              type T; a single set serves every train. Entries of a place: present (0 or 1), head end (0 or 1), first record and
 *              count of its conditions, first record and count of its limits. Of a place without a set only "present" is read
 *
 * The pools, shared by all links; a first record and a count must lie inside them:
 *
 *   elevs      offset, elevation             2 entries: none or at least two records, rising strictly from 0 to the link's length
 *   headings   offset, heading in radians    2 entries: the same
 *   limits     start, end, speed             3 entries, 0 <= start <= end, from the link's beginning
 *   codes      kind, comparison              2 entries of a condition: what the train is asked for, and how. At most 64 a set
 *   values     limit value                   1 entry of the same condition
 *   link_powers     power limit: start, end, power  3 entries, 0 <= start <= end
 *   link_districts  power limit: district number    1 entry
 *
 * A set applies if each of its conditions holds. Its limits below the top speed are laid from start to end; if the set is no
 * head-end set, the train's length is added to the end.
 * After new, extend, clear, reindex and finish with one train the speed posted at an offset is, as a number, the smallest of the top
 * speed and of all limits laid that cover it, from the start up to but not including the end, those of dropped links among them.
 */
#ifndef MOCHASPIT_H
#define MOCHASPIT_H

#include <stdbool.h>
#include <stddef.h>
#include <stdint.h>

/* ---- version of this header and of the archive that belongs to it */

#define MOCHASPIT_VERSION_MAJOR 0
#define MOCHASPIT_VERSION_MINOR 10
#define MOCHASPIT_VERSION_PATCH 0
#define MOCHASPIT_VERSION "0.10.0"

/* ---- attributes: an answer must be used; pointers, or those at the positions given, must not be NULL */

#if defined(__GNUC__) || defined(__clang__)
#define MOCHASPIT_MUST_USE __attribute__((warn_unused_result))
#define MOCHASPIT_NONNULL __attribute__((nonnull))
#define MOCHASPIT_NONNULL_AT(...) __attribute__((nonnull(__VA_ARGS__)))
#else
#define MOCHASPIT_MUST_USE
#define MOCHASPIT_NONNULL
#define MOCHASPIT_NONNULL_AT(...)
#endif

#ifdef __cplusplus
extern "C" {
#endif

/* ---- refusals */

/* The number of an answer: done, or the question that was answered with no. Later versions may have more. */
enum mochaspit_refusal {
    MOCHASPIT_DONE = 0,
    MOCHASPIT_BAD_NUMBER = 1,
    MOCHASPIT_UNSOUND = 2,
    MOCHASPIT_FINISHED = 3,
    MOCHASPIT_NO_SUCH_LINK = 4,
    MOCHASPIT_NOT_FOLLOWING = 5,
    MOCHASPIT_MALFORMED_LINK = 6,
    MOCHASPIT_NO_SPEED_SET = 7,
    MOCHASPIT_BAD_RESULT = 8,
    MOCHASPIT_NO_ROOM = 9,
    MOCHASPIT_OUT_OF_RANGE = 10,
    MOCHASPIT_BAD_INDEX = 11,
    MOCHASPIT_NO_LINKS = 12
};

/* What a number says, in words; never NULL. */
MOCHASPIT_MUST_USE
static inline const char *mochaspit_text(uint32_t number)
{
    switch (number) {
    case MOCHASPIT_DONE: return "done";
    case MOCHASPIT_BAD_NUMBER: return "a number is not finite, a train's length not above 0 or its top speed below 0, or a code is unknown";
    case MOCHASPIT_UNSOUND: return "the path's record and columns do not belong together, or a list is empty or longer than its column";
    case MOCHASPIT_FINISHED: return "the path is finished: nothing can be joined to it, and it cannot be finished again";
    case MOCHASPIT_NO_SUCH_LINK: return "a link number is 0 or not in the table, or a link gets no new number or the number 0";
    case MOCHASPIT_NOT_FOLLOWING: return "a link does not follow the one before it, or its two neighbours on one side are the same link";
    case MOCHASPIT_MALFORMED_LINK: return "a link of the table is not well formed";
    case MOCHASPIT_NO_SPEED_SET: return "a link has no speed set for this train";
    case MOCHASPIT_BAD_RESULT: return "a result is too large or no number, or a link's end is not beyond its beginning";
    case MOCHASPIT_NO_ROOM: return "the records do not fit in the columns or within their bounds";
    case MOCHASPIT_OUT_OF_RANGE: return "an offset lies outside the path or the list, or the path has no such link";
    case MOCHASPIT_BAD_INDEX: return "no search may start from the index, no record is at it, or fewer records lie before it than are taken off";
    case MOCHASPIT_NO_LINKS: return "the path has no link to drop";
    default: return "no answer has this number";
    }
}

/* ---- bounds and codes */

/* records at most */
#define MOCHASPIT_LINK_POINTS 1025
#define MOCHASPIT_GRADES 16384
#define MOCHASPIT_CURVES 16384
#define MOCHASPIT_SPEED_POINTS 4096
#define MOCHASPIT_POWER_LIMITS 1024
#define MOCHASPIT_CONDITIONS 64

/* entries of a path's record, in columns where they are more than one */
#define MOCHASPIT_NUMBERS_WIDTH 4
#define MOCHASPIT_COEFF_WIDTH 3
#define MOCHASPIT_SPEED_WIDTH 2
#define MOCHASPIT_POWER_WIDTH 3

/* entries of a link in links and sets, and of a set place */
#define MOCHASPIT_LINK_WIDTH 11
#define MOCHASPIT_SETS_WIDTH 48
#define MOCHASPIT_SET_WIDTH 6

/* Directions of a search. Any other code is refused with number 1, place 0. */
enum {
    MOCHASPIT_DIR_UNKNOWN = 0,
    MOCHASPIT_DIR_FORWARDS = 1,
    MOCHASPIT_DIR_BACKWARDS = 2
};

/* Train types. Any other code in a train is refused with number 1, place 0. */
enum {
    MOCHASPIT_TYPE_NONE = 0,
    MOCHASPIT_TYPE_FREIGHT = 1,
    MOCHASPIT_TYPE_PASSENGER = 2,
    MOCHASPIT_TYPE_INTERMODAL = 3,
    MOCHASPIT_TYPE_HIGH_SPEED_PASSENGER = 4,
    MOCHASPIT_TYPE_TILT_TRAIN = 5,
    MOCHASPIT_TYPE_COMMUTER = 6
};

/* Kinds of a condition: which figure of the train is compared. A value for axles is cut to a whole number from 0 to 4294967295. */
enum {
    MOCHASPIT_KIND_TOTAL_MASS = 3,
    MOCHASPIT_KIND_MASS_PER_BRAKE = 4,
    MOCHASPIT_KIND_AXLES = 5
};

/* Comparisons of a condition: the train's figure on the left, the limit value on the right. */
enum {
    MOCHASPIT_COMPARE_EQUAL = 1,
    MOCHASPIT_COMPARE_ABOVE = 2,
    MOCHASPIT_COMPARE_BELOW = 3,
    MOCHASPIT_COMPARE_NOT_BELOW = 4,
    MOCHASPIT_COMPARE_NOT_ABOVE = 5
};

/* ---- records */

/* What a call answers: 0 and 0 for done, or the number of the refusal and its place. */
typedef struct mochaspit_answer {
    uint32_t number;
    size_t place;
} mochaspit_answer;

/* A path: how many records its columns hold, link points with the end point, and whether it is finished. */
typedef struct mochaspit_path_tpc {
    size_t link_count;
    size_t grade_count;
    size_t curve_count;
    size_t speed_count;
    size_t power_count;
    bool is_finished;
} mochaspit_path_tpc;

/* An answer, and the path's record after the call. */
typedef struct mochaspit_path_answer {
    mochaspit_answer answer;
    mochaspit_path_tpc path;
} mochaspit_path_answer;

/* A link point. In the answer of mochaspit_clear: counts alone, offset and number 0. */
typedef struct mochaspit_link_point {
    double offset;
    size_t grade_count;
    size_t curve_count;
    size_t cat_power_count;
    uint32_t link_idx;
} mochaspit_link_point;

/* What mochaspit_clear and mochaspit_clear_each answer: dropped has the grade, curve and power counts of the links that went. */
typedef struct mochaspit_clear_answer {
    mochaspit_path_answer outcome;
    mochaspit_link_point dropped;
} mochaspit_clear_answer;

/* A train: length, top speed, masses, curve coefficients, axles, and the code of its type. */
typedef struct mochaspit_train {
    double length;
    double speed_max;
    double towed_mass_static;
    double mass_per_brake;
    double curve_coeff_0;
    double curve_coeff_1;
    double curve_coeff_2;
    uint32_t axle_count;
    uint32_t train_type;
} mochaspit_train;

/* Where a train stands: offsets of its front and back on the path, length, weight in newtons; the links of front and back and the
 * front's distance from the beginning of its link, which mochaspit_set_link_and_offset writes. */
typedef struct mochaspit_train_state {
    double offset;
    double offset_back;
    double length;
    double weight_static;
    uint32_t link_idx_front;
    uint32_t link_idx_back;
    double offset_in_link;
} mochaspit_train_state;

/* An answer, and the position after the call. */
typedef struct mochaspit_state_answer {
    mochaspit_answer answer;
    mochaspit_train_state state;
} mochaspit_state_answer;

/* Entries of a column: len of them, the first at from. */
typedef struct mochaspit_range {
    size_t from;
    size_t len;
} mochaspit_range;

/* An answer with a range. */
typedef struct mochaspit_range_answer {
    mochaspit_answer answer;
    mochaspit_range range;
} mochaspit_range_answer;

/* An answer with a speed. */
typedef struct mochaspit_posted_answer {
    mochaspit_answer answer;
    double speed;
} mochaspit_posted_answer;

/* An answer with an index in a list. */
typedef struct mochaspit_searched {
    mochaspit_answer answer;
    size_t idx;
} mochaspit_searched;

/* An answer with a coefficient. */
typedef struct mochaspit_coeff_answer {
    mochaspit_answer answer;
    double res_coeff;
} mochaspit_coeff_answer;

/* An answer with a net value, in metres. */
typedef struct mochaspit_net_answer {
    mochaspit_answer answer;
    double res_net;
} mochaspit_net_answer;

/* Resistance taken at the train's middle: the index of the record it is in. */
typedef struct mochaspit_point {
    size_t idx;
} mochaspit_point;

/* An answer with a point. */
typedef struct mochaspit_point_answer {
    mochaspit_answer answer;
    mochaspit_point point;
} mochaspit_point_answer;

/* An answer with a point and a force in newtons. */
typedef struct mochaspit_point_res {
    mochaspit_answer answer;
    mochaspit_point point;
    double res;
} mochaspit_point_res;

/* Resistance taken over the train's length: the indices of the records that its front and back are in. */
typedef struct mochaspit_strap {
    size_t idx_front;
    size_t idx_back;
} mochaspit_strap;

/* An answer with a strap. */
typedef struct mochaspit_strap_answer {
    mochaspit_answer answer;
    mochaspit_strap strap;
} mochaspit_strap_answer;

/* An answer with a strap and a force in newtons. */
typedef struct mochaspit_strap_res {
    mochaspit_answer answer;
    mochaspit_strap strap;
    double res;
} mochaspit_strap_res;

/* ---- columns, table and list */

/* A path's columns: of each the pointer to its first entry, or NULL, and how many entries it has. A struct that is all zeros to begin with
 * (static, or set so) has NULL where no column is lent. */
typedef struct mochaspit_columns {
    double *offsets;
    size_t offsets_len;
    uint32_t *numbers;
    size_t numbers_len;
    double *grades;
    size_t grades_len;
    double *curves;
    size_t curves_len;
    double *speeds;
    size_t speeds_len;
    double *powers;
    size_t powers_len;
    uint32_t *districts;
    size_t districts_len;
} mochaspit_columns;

/* The link table's columns, likewise. A pool that no link has records in may be NULL. */
typedef struct mochaspit_table {
    const uint32_t *links;
    size_t links_len;
    const double *lengths;
    size_t lengths_len;
    const uint32_t *sets;
    size_t sets_len;
    const double *elevs;
    size_t elevs_len;
    const double *headings;
    size_t headings_len;
    const double *limits;
    size_t limits_len;
    const uint32_t *codes;
    size_t codes_len;
    const double *values;
    size_t values_len;
    const double *link_powers;
    size_t link_powers_len;
    const uint32_t *link_districts;
    size_t link_districts_len;
} mochaspit_table;

/* Lends an array, which must not be a pointer, as a column of one of these structs: MOCHASPIT_LEND(columns, grades, my_grades). */
#define MOCHASPIT_LEND(to, column, array) ((to).column = (array), (to).column##_len = sizeof(array) / sizeof((array)[0]))

/* A list of n records, three entries each, in a column of grades or curves: its pointer, or NULL, and how many entries it has.
 * mochaspit_path_grades and mochaspit_path_curves make one. */
typedef struct mochaspit_list {
    const double *col;
    size_t col_len;
    size_t n;
} mochaspit_list;

/* ---- calls with structs: mochaspit_path_X is mochaspit_X with these columns and this table, mochaspit_list_X is mochaspit_X with this
 * list. What X does stands below. A list of links, of offsets or of other numbers may be NULL: one without entries. */

MOCHASPIT_MUST_USE MOCHASPIT_NONNULL
static inline mochaspit_path_answer mochaspit_path_new(mochaspit_train train, const mochaspit_columns *columns);

MOCHASPIT_MUST_USE MOCHASPIT_NONNULL_AT(5, 6)
static inline mochaspit_path_answer mochaspit_path_extend(
    mochaspit_path_tpc path, mochaspit_train train, const uint32_t *list, size_t list_len, const mochaspit_columns *columns,
    const mochaspit_table *table);

MOCHASPIT_MUST_USE MOCHASPIT_NONNULL
static inline mochaspit_clear_answer mochaspit_path_clear(mochaspit_path_tpc path, double offset, const mochaspit_columns *columns);

MOCHASPIT_MUST_USE MOCHASPIT_NONNULL_AT(4)
static inline mochaspit_clear_answer mochaspit_path_clear_each(
    mochaspit_path_tpc path, const double *xs, size_t xs_len, const mochaspit_columns *columns);

MOCHASPIT_MUST_USE MOCHASPIT_NONNULL
static inline mochaspit_path_answer mochaspit_path_finish(mochaspit_path_tpc path, const mochaspit_columns *columns);

MOCHASPIT_MUST_USE MOCHASPIT_NONNULL
static inline mochaspit_path_answer mochaspit_path_recalc_speeds(
    mochaspit_path_tpc path, mochaspit_train train, const mochaspit_columns *columns, const mochaspit_table *table);

MOCHASPIT_MUST_USE MOCHASPIT_NONNULL_AT(4)
static inline mochaspit_path_answer mochaspit_path_reindex(
    mochaspit_path_tpc path, const uint32_t *renumbered, size_t renumbered_len, const mochaspit_columns *columns);

MOCHASPIT_MUST_USE MOCHASPIT_NONNULL
static inline mochaspit_range_answer mochaspit_path_link_grades(mochaspit_path_tpc path, size_t k, const mochaspit_columns *columns);

MOCHASPIT_MUST_USE MOCHASPIT_NONNULL
static inline mochaspit_range_answer mochaspit_path_link_curves(mochaspit_path_tpc path, size_t k, const mochaspit_columns *columns);

MOCHASPIT_MUST_USE MOCHASPIT_NONNULL
static inline mochaspit_posted_answer mochaspit_path_posted_speed(mochaspit_path_tpc path, double offset, const mochaspit_columns *columns);

MOCHASPIT_MUST_USE MOCHASPIT_NONNULL
static inline mochaspit_state_answer mochaspit_path_set_link_and_offset(
    mochaspit_train_state state, mochaspit_path_tpc path, const mochaspit_columns *columns);

/* The path's grades as a list, and its curves. No questions: a call on the list puts them. */
MOCHASPIT_MUST_USE MOCHASPIT_NONNULL
static inline mochaspit_list mochaspit_path_grades(mochaspit_path_tpc path, const mochaspit_columns *columns);
MOCHASPIT_MUST_USE MOCHASPIT_NONNULL
static inline mochaspit_list mochaspit_path_curves(mochaspit_path_tpc path, const mochaspit_columns *columns);

MOCHASPIT_MUST_USE
static inline mochaspit_searched mochaspit_list_calc_idx(mochaspit_list list, double offset, size_t hint, uint32_t dir);

MOCHASPIT_MUST_USE
static inline mochaspit_point_answer mochaspit_list_point_new(mochaspit_list list, mochaspit_train_state state);
MOCHASPIT_MUST_USE
static inline mochaspit_point_res mochaspit_list_point_calc_res(
    mochaspit_point point, mochaspit_list list, mochaspit_train_state state, uint32_t dir);
MOCHASPIT_MUST_USE
static inline mochaspit_coeff_answer mochaspit_list_point_res_coeff_front(mochaspit_point point, mochaspit_list list);
MOCHASPIT_MUST_USE
static inline mochaspit_net_answer mochaspit_list_point_res_net_front(
    mochaspit_point point, mochaspit_list list, mochaspit_train_state state);

MOCHASPIT_MUST_USE
static inline mochaspit_strap_answer mochaspit_list_strap_new(mochaspit_list list, mochaspit_train_state state);
MOCHASPIT_MUST_USE
static inline mochaspit_strap_res mochaspit_list_strap_calc_res(
    mochaspit_strap strap, mochaspit_list list, mochaspit_train_state state, uint32_t dir);
MOCHASPIT_MUST_USE
static inline mochaspit_strap_res mochaspit_list_strap_walk(
    mochaspit_strap strap, mochaspit_list list, mochaspit_train_state state, uint32_t dir, double step, size_t count);
MOCHASPIT_MUST_USE
static inline mochaspit_coeff_answer mochaspit_list_strap_res_coeff_front(mochaspit_strap strap, mochaspit_list list);
MOCHASPIT_MUST_USE
static inline mochaspit_coeff_answer mochaspit_list_strap_res_coeff_back(mochaspit_strap strap, mochaspit_list list);
MOCHASPIT_MUST_USE
static inline mochaspit_net_answer mochaspit_list_strap_res_net_front(
    mochaspit_strap strap, mochaspit_list list, mochaspit_train_state state);
MOCHASPIT_MUST_USE
static inline mochaspit_net_answer mochaspit_list_strap_res_net_back(
    mochaspit_strap strap, mochaspit_list list, mochaspit_train_state state);

/* ---- flat calls that may change a path; a refused one leaves the columns as they came and answers the record that it was given */

/*
 * A path without links: one link point, grade and curve record, all zero, and the speed point (0, top speed). What the columns held
 * before is overwritten.
 * Questions: 1 of the train; 9, room for one record of each kind but power limits.
 * Comes back: the record with the counts 1, 1, 1, 1, 0. Refused: the columns as they came, a record of zeros.
 */
MOCHASPIT_MUST_USE MOCHASPIT_NONNULL
mochaspit_path_answer mochaspit_new(
    mochaspit_train train,
    double *offsets, size_t offsets_len,
    uint32_t *numbers, size_t numbers_len,
    double *grades, size_t grades_len,
    double *curves, size_t curves_len,
    double *speeds, size_t speeds_len,
    double *powers, size_t powers_len,
    uint32_t *districts, size_t districts_len);

/*
 * Joins the listed links to the path's end, with their limits, grades, curves and power limits. An empty list changes no record.
 * Questions: 1 of path and train; 2; 3; then of each listed link 4, 5, 6, 7 and 8; 9, where speed points need the present count and
 * two for each limit laid. The first link of a path need not follow any other.
 * Comes back: the record with the new counts. Refused: columns and record as they came, none of the links joined.
 */
MOCHASPIT_MUST_USE MOCHASPIT_NONNULL
mochaspit_path_answer mochaspit_extend(
    mochaspit_path_tpc path,
    mochaspit_train train,
    const uint32_t *list, size_t list_len,
    double *offsets, size_t offsets_len,
    uint32_t *numbers, size_t numbers_len,
    double *grades, size_t grades_len,
    double *curves, size_t curves_len,
    double *speeds, size_t speeds_len,
    double *powers, size_t powers_len,
    uint32_t *districts, size_t districts_len,
    const uint32_t *links, size_t links_len,
    const double *lengths, size_t lengths_len,
    const uint32_t *sets, size_t sets_len,
    const double *elevs, size_t elevs_len,
    const double *headings, size_t headings_len,
    const double *limits, size_t limits_len,
    const uint32_t *codes, size_t codes_len,
    const double *values, size_t values_len,
    const double *link_powers, size_t link_powers_len,
    const uint32_t *link_districts, size_t link_districts_len);

/*
 * Drops the links behind an offset, as a rule that of the train's back. The kept beginning is the first link point whose next one is
 * not before the offset: an offset on a link's beginning keeps the link before. The limit that the train stands in stays posted.
 * Questions: 1 of path and offset; 2; 10, the offset from the first to the last link point; 12.
 * Comes back: the record with the new counts, and in dropped the grades, curves and power limits that went, by which indices into
 * these columns fall (mochaspit_point_fix_cache, mochaspit_strap_fix_cache). Refused: columns and record as they came, dropped 0.
 */
MOCHASPIT_MUST_USE MOCHASPIT_NONNULL
mochaspit_clear_answer mochaspit_clear(
    mochaspit_path_tpc path,
    double offset,
    double *offsets, size_t offsets_len,
    uint32_t *numbers, size_t numbers_len,
    double *grades, size_t grades_len,
    double *curves, size_t curves_len,
    double *speeds, size_t speeds_len,
    double *powers, size_t powers_len,
    uint32_t *districts, size_t districts_len);

/*
 * Drops the links behind each offset of a list in turn, all or nothing: what so many calls of mochaspit_clear leave, each on the path
 * as the one before left it. Questions 1 and 2 of the path are asked once, and the records move once.
 * Questions: those of mochaspit_clear, trim by trim; the first refusal is the answer, its place the position in the list, from 0.
 * An empty list asks 1 and 2 and leaves zeros past the counts.
 * Comes back: the record with the new counts, and in dropped all that went. Refused: columns and record as they came, dropped 0.
 */
MOCHASPIT_MUST_USE MOCHASPIT_NONNULL
mochaspit_clear_answer mochaspit_clear_each(
    mochaspit_path_tpc path,
    const double *xs, size_t xs_len,
    double *offsets, size_t offsets_len,
    uint32_t *numbers, size_t numbers_len,
    double *grades, size_t grades_len,
    double *curves, size_t curves_len,
    double *speeds, size_t speeds_len,
    double *powers, size_t powers_len,
    uint32_t *districts, size_t districts_len);

/*
 * Closes a path: one more grade and curve record at +infinity, coefficient 0, with the last record's net value.
 * Questions: 1 of the path; 2; 3; 9, room for the two records.
 * Comes back: the record, finished, with one grade and one curve more. Refused: columns and record as they came.
 */
MOCHASPIT_MUST_USE MOCHASPIT_NONNULL
mochaspit_path_answer mochaspit_finish(
    mochaspit_path_tpc path,
    double *offsets, size_t offsets_len,
    uint32_t *numbers, size_t numbers_len,
    double *grades, size_t grades_len,
    double *curves, size_t curves_len,
    double *speeds, size_t speeds_len,
    double *powers, size_t powers_len,
    uint32_t *districts, size_t districts_len);

/*
 * The speed points anew: the top speed from the path's beginning on, and then the limits of the links still on the path. A finished
 * path may be recalculated. Limits of dropped links, whose tails may reach into the path, are not laid again.
 * Questions: 1 of path and train; 2; then of each link on the path 4, 6, 7 and 8, the place being its link point; 9, room for one
 * speed point and two for each limit laid.
 * Comes back: the record with the new count of speed points. Refused: columns and record as they came.
 */
MOCHASPIT_MUST_USE MOCHASPIT_NONNULL
mochaspit_path_answer mochaspit_recalc_speeds(
    mochaspit_path_tpc path,
    mochaspit_train train,
    double *offsets, size_t offsets_len,
    uint32_t *numbers, size_t numbers_len,
    double *grades, size_t grades_len,
    double *curves, size_t curves_len,
    double *speeds, size_t speeds_len,
    double *powers, size_t powers_len,
    uint32_t *districts, size_t districts_len,
    const uint32_t *links, size_t links_len,
    const double *lengths, size_t lengths_len,
    const uint32_t *sets, size_t sets_len,
    const double *elevs, size_t elevs_len,
    const double *headings, size_t headings_len,
    const double *limits, size_t limits_len,
    const uint32_t *codes, size_t codes_len,
    const double *values, size_t values_len,
    const double *link_powers, size_t link_powers_len,
    const uint32_t *link_districts, size_t link_districts_len);

/*
 * Other numbers for the links: link n gets renumbered[n], the end point the last link's.
 * Questions: 1 of the path; 2; 4, a number for each link, and not 0, the place being its link point.
 * Comes back: the record as it was. Refused: columns and record as they came.
 */
MOCHASPIT_MUST_USE MOCHASPIT_NONNULL
mochaspit_path_answer mochaspit_reindex(
    mochaspit_path_tpc path,
    const uint32_t *renumbered, size_t renumbered_len,
    double *offsets, size_t offsets_len,
    uint32_t *numbers, size_t numbers_len,
    double *grades, size_t grades_len,
    double *curves, size_t curves_len,
    double *speeds, size_t speeds_len,
    double *powers, size_t powers_len,
    uint32_t *districts, size_t districts_len);

/* ---- flat calls that only read a path */

/*
 * Where the grades of link k, from 0, lie: a range of entries of the column grades, three to a record.
 * Questions: 1 of the path; 2; 10, there is a k-th link.
 * Comes back: the range. Refused: the range 0, 0.
 */
MOCHASPIT_MUST_USE MOCHASPIT_NONNULL
mochaspit_range_answer mochaspit_link_grades(
    mochaspit_path_tpc path,
    size_t k,
    const double *offsets, size_t offsets_len,
    const uint32_t *numbers, size_t numbers_len,
    const double *grades, size_t grades_len,
    const double *curves, size_t curves_len,
    const double *speeds, size_t speeds_len,
    const double *powers, size_t powers_len,
    const uint32_t *districts, size_t districts_len);

/* Where the curves of link k lie: as mochaspit_link_grades, in the column curves. */
MOCHASPIT_MUST_USE MOCHASPIT_NONNULL
mochaspit_range_answer mochaspit_link_curves(
    mochaspit_path_tpc path,
    size_t k,
    const double *offsets, size_t offsets_len,
    const uint32_t *numbers, size_t numbers_len,
    const double *grades, size_t grades_len,
    const double *curves, size_t curves_len,
    const double *speeds, size_t speeds_len,
    const double *powers, size_t powers_len,
    const uint32_t *districts, size_t districts_len);

/*
 * The speed posted at an offset: that of the last speed point at or before it.
 * Questions: 1 of the path and the offset; 2; 10, the offset not before the first link point.
 * Comes back: the speed, to the bit. Refused: 0.
 */
MOCHASPIT_MUST_USE MOCHASPIT_NONNULL
mochaspit_posted_answer mochaspit_posted_speed(
    mochaspit_path_tpc path,
    double offset,
    const double *offsets, size_t offsets_len,
    const uint32_t *numbers, size_t numbers_len,
    const double *grades, size_t grades_len,
    const double *curves, size_t curves_len,
    const double *speeds, size_t speeds_len,
    const double *powers, size_t powers_len,
    const uint32_t *districts, size_t districts_len);

/*
 * The links where a train stands: for the front and for the back the last link point at or before it, and the front's distance from
 * its link point.
 * Questions: 1 of position and path; 2; 10, front and back not before the first link point; 8, that distance.
 * Comes back: the position with link_idx_front, link_idx_back and offset_in_link written. Refused: the position as it came.
 */
MOCHASPIT_MUST_USE MOCHASPIT_NONNULL
mochaspit_state_answer mochaspit_set_link_and_offset(
    mochaspit_train_state state,
    mochaspit_path_tpc path,
    const double *offsets, size_t offsets_len,
    const uint32_t *numbers, size_t numbers_len,
    const double *grades, size_t grades_len,
    const double *curves, size_t curves_len,
    const double *speeds, size_t speeds_len,
    const double *powers, size_t powers_len,
    const uint32_t *districts, size_t districts_len);

/* ---- flat calls on a list: the first n records of col, three entries each (offset, coefficient, net value), as grades and curves have
 * them. Question 1 of a list: every number finite, but the last record's offset may be +infinity. Question 2: n is not 0, and the
 * column holds n records. Any number of records may be searched. */

/*
 * The record where an offset lies, searched from the index hint. Forwards and unknown: the first record from the hint on whose
 * successor is not before the offset, never back. Backwards: the last record up to the hint that is not after the offset.
 * Questions: 1 of dir, offset and list; 2; 10, forwards and unknown: not past the last record, backwards: not before the first; 11,
 * forwards and unknown: the hint below the last index, backwards: an index.
 * Comes back: the index. Refused: 0.
 */
MOCHASPIT_MUST_USE MOCHASPIT_NONNULL
mochaspit_searched mochaspit_calc_idx(const double *col, size_t col_len, size_t n, double offset, size_t hint, uint32_t dir);

/*
 * A point for a train: the record of its middle, offset - length * 0.5, searched forwards from 0.
 * Questions: 1 of position and list; 2; 8 of the middle; 10 and 11 of the search. A list of one record is always refused.
 * Comes back: the point. Refused: index 0.
 */
MOCHASPIT_MUST_USE MOCHASPIT_NONNULL
mochaspit_point_answer mochaspit_point_new(const double *col, size_t col_len, size_t n, mochaspit_train_state state);

/*
 * The force on the train: the point moves to the middle's record, searched from its own index; its coefficient times weight_static.
 * Questions: 1 of dir, position and list; 2; 8 of the middle; 10 and 11 of the search; 8 of the force.
 * Comes back: the point moved, and the force. Refused: the point as it came, force 0.
 */
MOCHASPIT_MUST_USE MOCHASPIT_NONNULL
mochaspit_point_res mochaspit_point_calc_res(
    mochaspit_point point, const double *col, size_t col_len, size_t n, mochaspit_train_state state, uint32_t dir);

/*
 * The coefficient of the point's record.
 * Questions: 1 of the list; 2; 11, the index is in the list.
 * Comes back: the coefficient. Refused: 0.
 */
MOCHASPIT_MUST_USE MOCHASPIT_NONNULL
mochaspit_coeff_answer mochaspit_point_res_coeff_front(mochaspit_point point, const double *col, size_t col_len, size_t n);

/*
 * The net value at the train's front by the point's record: net + coefficient * (offset - the record's offset).
 * Questions: 1 of position and list; 2; 11; 8.
 * Comes back: the net value. Refused: 0.
 */
MOCHASPIT_MUST_USE MOCHASPIT_NONNULL
mochaspit_net_answer mochaspit_point_res_net_front(
    mochaspit_point point, const double *col, size_t col_len, size_t n, mochaspit_train_state state);

/* The point's index. No questions. */
MOCHASPIT_MUST_USE
size_t mochaspit_point_path_tpc_idx_front(mochaspit_point point);

/*
 * The point once sub records at the beginning of the list are dropped.
 * Questions: 11, sub is not above the index.
 * Comes back: the point with its index less sub. Refused: the point as it came.
 */
MOCHASPIT_MUST_USE
mochaspit_point_answer mochaspit_point_fix_cache(mochaspit_point point, size_t sub);

/*
 * A strap for a train: its back, offset - length, searched forwards from 0, and its front from there. 0 and 0 for a single record.
 * Questions: 1 of position and list; 2; then, of two records or more, 8 of the back, 10 and 11 of the back, 10 and 11 of the front.
 * Comes back: the strap. Refused: indices 0 and 0.
 */
MOCHASPIT_MUST_USE MOCHASPIT_NONNULL
mochaspit_strap_answer mochaspit_strap_new(const double *col, size_t col_len, size_t n, mochaspit_train_state state);

/*
 * The force on the train. Forwards moves the front, backwards the back, unknown both; if front and back are in one record its
 * coefficient counts, otherwise the other end is moved too and (front value - back value) / length counts. Times weight_static. The
 * front is at offset, the back at offset_back.
 * Questions: 1 of dir, position and list; 2; 10 and 11 of the first search, and of the other where it is made; 8.
 * Comes back: the strap moved, and the force. Refused: the strap as it came, force 0.
 */
MOCHASPIT_MUST_USE MOCHASPIT_NONNULL
mochaspit_strap_res mochaspit_strap_calc_res(
    mochaspit_strap strap, const double *col, size_t col_len, size_t n, mochaspit_train_state state, uint32_t dir);

/*
 * mochaspit_strap_calc_res at count positions, the first at state, front and back of each step metres further than those of the one
 * before: all or nothing. The list is read once for questions 1 and 2.
 * Questions: 1 of dir, position, step and list; 2; then at each position 10 and 11 of the first search, and of the other where it is
 * made, and 8; between two positions 8 of front + step and back + step. A refusal has place 0, at whichever position.
 * Comes back: the strap and the force of the last position; for count 0 the strap as it came and force 0. Refused: the same strap as it
 * came and force 0.
 */
MOCHASPIT_MUST_USE MOCHASPIT_NONNULL
mochaspit_strap_res mochaspit_strap_walk(
    mochaspit_strap strap, const double *col, size_t col_len, size_t n, mochaspit_train_state state, uint32_t dir, double step,
    size_t count);

/*
 * The coefficient of the front's or the back's record.
 * Questions: 1 of the list; 2; 11, the index is in the list.
 * Comes back: the coefficient. Refused: 0.
 */
MOCHASPIT_MUST_USE MOCHASPIT_NONNULL
mochaspit_coeff_answer mochaspit_strap_res_coeff_front(mochaspit_strap strap, const double *col, size_t col_len, size_t n);
MOCHASPIT_MUST_USE MOCHASPIT_NONNULL
mochaspit_coeff_answer mochaspit_strap_res_coeff_back(mochaspit_strap strap, const double *col, size_t col_len, size_t n);

/*
 * The net value at the front by the front's record, or at the back by the back's: net + coefficient * (offset - the record's offset).
 * Questions: 1 of position and list; 2; 11; 8.
 * Comes back: the net value. Refused: 0.
 */
MOCHASPIT_MUST_USE MOCHASPIT_NONNULL
mochaspit_net_answer mochaspit_strap_res_net_front(
    mochaspit_strap strap, const double *col, size_t col_len, size_t n, mochaspit_train_state state);
MOCHASPIT_MUST_USE MOCHASPIT_NONNULL
mochaspit_net_answer mochaspit_strap_res_net_back(
    mochaspit_strap strap, const double *col, size_t col_len, size_t n, mochaspit_train_state state);

/* The front's index. No questions. */
MOCHASPIT_MUST_USE
size_t mochaspit_strap_path_tpc_idx_front(mochaspit_strap strap);

/*
 * The strap once sub records at the beginning of the list are dropped.
 * Questions: 11, sub is above neither index.
 * Comes back: the strap with both indices less sub. Refused: the strap as it came.
 */
MOCHASPIT_MUST_USE
mochaspit_strap_answer mochaspit_strap_fix_cache(mochaspit_strap strap, size_t sub);

/* ---- the calls with structs */

/* A column as a flat call takes it: NULL is an entry that no call sees, since the length is 0 then. */
static inline double *mochaspit_f64_(double *column)
{
    static double none;
    return column ? column : &none;
}

static inline uint32_t *mochaspit_u32_(uint32_t *column)
{
    static uint32_t none;
    return column ? column : &none;
}

static inline const double *mochaspit_const_f64_(const double *column)
{
    static const double none = 0;
    return column ? column : &none;
}

static inline const uint32_t *mochaspit_const_u32_(const uint32_t *column)
{
    static const uint32_t none = 0;
    return column ? column : &none;
}

static inline size_t mochaspit_len_(const void *column, size_t len)
{
    return column ? len : 0;
}

/* The arguments of the seven columns, of the ten, and of a list. */
#define MOCHASPIT_COLUMNS_(c) \
    mochaspit_f64_((c)->offsets), mochaspit_len_((c)->offsets, (c)->offsets_len), \
    mochaspit_u32_((c)->numbers), mochaspit_len_((c)->numbers, (c)->numbers_len), \
    mochaspit_f64_((c)->grades), mochaspit_len_((c)->grades, (c)->grades_len), \
    mochaspit_f64_((c)->curves), mochaspit_len_((c)->curves, (c)->curves_len), \
    mochaspit_f64_((c)->speeds), mochaspit_len_((c)->speeds, (c)->speeds_len), \
    mochaspit_f64_((c)->powers), mochaspit_len_((c)->powers, (c)->powers_len), \
    mochaspit_u32_((c)->districts), mochaspit_len_((c)->districts, (c)->districts_len)
#define MOCHASPIT_TABLE_(t) \
    mochaspit_const_u32_((t)->links), mochaspit_len_((t)->links, (t)->links_len), \
    mochaspit_const_f64_((t)->lengths), mochaspit_len_((t)->lengths, (t)->lengths_len), \
    mochaspit_const_u32_((t)->sets), mochaspit_len_((t)->sets, (t)->sets_len), \
    mochaspit_const_f64_((t)->elevs), mochaspit_len_((t)->elevs, (t)->elevs_len), \
    mochaspit_const_f64_((t)->headings), mochaspit_len_((t)->headings, (t)->headings_len), \
    mochaspit_const_f64_((t)->limits), mochaspit_len_((t)->limits, (t)->limits_len), \
    mochaspit_const_u32_((t)->codes), mochaspit_len_((t)->codes, (t)->codes_len), \
    mochaspit_const_f64_((t)->values), mochaspit_len_((t)->values, (t)->values_len), \
    mochaspit_const_f64_((t)->link_powers), mochaspit_len_((t)->link_powers, (t)->link_powers_len), \
    mochaspit_const_u32_((t)->link_districts), mochaspit_len_((t)->link_districts, (t)->link_districts_len)
#define MOCHASPIT_LIST_(l) mochaspit_const_f64_((l).col), mochaspit_len_((l).col, (l).col_len), (l).n

static inline mochaspit_path_answer mochaspit_path_new(mochaspit_train train, const mochaspit_columns *columns)
{
    return mochaspit_new(train, MOCHASPIT_COLUMNS_(columns));
}

static inline mochaspit_path_answer mochaspit_path_extend(
    mochaspit_path_tpc path, mochaspit_train train, const uint32_t *list, size_t list_len, const mochaspit_columns *columns,
    const mochaspit_table *table)
{
    return mochaspit_extend(
        path, train, mochaspit_const_u32_(list), mochaspit_len_(list, list_len), MOCHASPIT_COLUMNS_(columns), MOCHASPIT_TABLE_(table));
}

static inline mochaspit_clear_answer mochaspit_path_clear(mochaspit_path_tpc path, double offset, const mochaspit_columns *columns)
{
    return mochaspit_clear(path, offset, MOCHASPIT_COLUMNS_(columns));
}

static inline mochaspit_clear_answer mochaspit_path_clear_each(
    mochaspit_path_tpc path, const double *xs, size_t xs_len, const mochaspit_columns *columns)
{
    return mochaspit_clear_each(path, mochaspit_const_f64_(xs), mochaspit_len_(xs, xs_len), MOCHASPIT_COLUMNS_(columns));
}

static inline mochaspit_path_answer mochaspit_path_finish(mochaspit_path_tpc path, const mochaspit_columns *columns)
{
    return mochaspit_finish(path, MOCHASPIT_COLUMNS_(columns));
}

static inline mochaspit_path_answer mochaspit_path_recalc_speeds(
    mochaspit_path_tpc path, mochaspit_train train, const mochaspit_columns *columns, const mochaspit_table *table)
{
    return mochaspit_recalc_speeds(path, train, MOCHASPIT_COLUMNS_(columns), MOCHASPIT_TABLE_(table));
}

static inline mochaspit_path_answer mochaspit_path_reindex(
    mochaspit_path_tpc path, const uint32_t *renumbered, size_t renumbered_len, const mochaspit_columns *columns)
{
    return mochaspit_reindex(
        path, mochaspit_const_u32_(renumbered), mochaspit_len_(renumbered, renumbered_len), MOCHASPIT_COLUMNS_(columns));
}

static inline mochaspit_range_answer mochaspit_path_link_grades(mochaspit_path_tpc path, size_t k, const mochaspit_columns *columns)
{
    return mochaspit_link_grades(path, k, MOCHASPIT_COLUMNS_(columns));
}

static inline mochaspit_range_answer mochaspit_path_link_curves(mochaspit_path_tpc path, size_t k, const mochaspit_columns *columns)
{
    return mochaspit_link_curves(path, k, MOCHASPIT_COLUMNS_(columns));
}

static inline mochaspit_posted_answer mochaspit_path_posted_speed(mochaspit_path_tpc path, double offset, const mochaspit_columns *columns)
{
    return mochaspit_posted_speed(path, offset, MOCHASPIT_COLUMNS_(columns));
}

static inline mochaspit_state_answer mochaspit_path_set_link_and_offset(
    mochaspit_train_state state, mochaspit_path_tpc path, const mochaspit_columns *columns)
{
    return mochaspit_set_link_and_offset(state, path, MOCHASPIT_COLUMNS_(columns));
}

static inline mochaspit_list mochaspit_path_grades(mochaspit_path_tpc path, const mochaspit_columns *columns)
{
    mochaspit_list list;
    list.col = columns->grades;
    list.col_len = columns->grades_len;
    list.n = path.grade_count;
    return list;
}

static inline mochaspit_list mochaspit_path_curves(mochaspit_path_tpc path, const mochaspit_columns *columns)
{
    mochaspit_list list;
    list.col = columns->curves;
    list.col_len = columns->curves_len;
    list.n = path.curve_count;
    return list;
}

static inline mochaspit_searched mochaspit_list_calc_idx(mochaspit_list list, double offset, size_t hint, uint32_t dir)
{
    return mochaspit_calc_idx(MOCHASPIT_LIST_(list), offset, hint, dir);
}

static inline mochaspit_point_answer mochaspit_list_point_new(mochaspit_list list, mochaspit_train_state state)
{
    return mochaspit_point_new(MOCHASPIT_LIST_(list), state);
}

static inline mochaspit_point_res mochaspit_list_point_calc_res(
    mochaspit_point point, mochaspit_list list, mochaspit_train_state state, uint32_t dir)
{
    return mochaspit_point_calc_res(point, MOCHASPIT_LIST_(list), state, dir);
}

static inline mochaspit_coeff_answer mochaspit_list_point_res_coeff_front(mochaspit_point point, mochaspit_list list)
{
    return mochaspit_point_res_coeff_front(point, MOCHASPIT_LIST_(list));
}

static inline mochaspit_net_answer mochaspit_list_point_res_net_front(
    mochaspit_point point, mochaspit_list list, mochaspit_train_state state)
{
    return mochaspit_point_res_net_front(point, MOCHASPIT_LIST_(list), state);
}

static inline mochaspit_strap_answer mochaspit_list_strap_new(mochaspit_list list, mochaspit_train_state state)
{
    return mochaspit_strap_new(MOCHASPIT_LIST_(list), state);
}

static inline mochaspit_strap_res mochaspit_list_strap_calc_res(
    mochaspit_strap strap, mochaspit_list list, mochaspit_train_state state, uint32_t dir)
{
    return mochaspit_strap_calc_res(strap, MOCHASPIT_LIST_(list), state, dir);
}

static inline mochaspit_strap_res mochaspit_list_strap_walk(
    mochaspit_strap strap, mochaspit_list list, mochaspit_train_state state, uint32_t dir, double step, size_t count)
{
    return mochaspit_strap_walk(strap, MOCHASPIT_LIST_(list), state, dir, step, count);
}

static inline mochaspit_coeff_answer mochaspit_list_strap_res_coeff_front(mochaspit_strap strap, mochaspit_list list)
{
    return mochaspit_strap_res_coeff_front(strap, MOCHASPIT_LIST_(list));
}

static inline mochaspit_coeff_answer mochaspit_list_strap_res_coeff_back(mochaspit_strap strap, mochaspit_list list)
{
    return mochaspit_strap_res_coeff_back(strap, MOCHASPIT_LIST_(list));
}

static inline mochaspit_net_answer mochaspit_list_strap_res_net_front(
    mochaspit_strap strap, mochaspit_list list, mochaspit_train_state state)
{
    return mochaspit_strap_res_net_front(strap, MOCHASPIT_LIST_(list), state);
}

static inline mochaspit_net_answer mochaspit_list_strap_res_net_back(
    mochaspit_strap strap, mochaspit_list list, mochaspit_train_state state)
{
    return mochaspit_strap_res_net_back(strap, MOCHASPIT_LIST_(list), state);
}

#undef MOCHASPIT_COLUMNS_
#undef MOCHASPIT_TABLE_
#undef MOCHASPIT_LIST_

#ifdef __cplusplus
}
#endif

#endif
