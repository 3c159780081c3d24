/*
 * Tests of include/mochaspit.h: each call with structs against its flat call, bit for bit; NULL columns; texts; a record that is out of
 * date. C99 and C++11; bindings/c/run builds and runs it.
 */
#include <mochaspit.h>
#include <math.h>
#include <stdio.h>
#include <stdlib.h>
#include <string.h>

#define COUNT(a) (sizeof(a) / sizeof(a)[0])
#define COLUMN(a) (a), COUNT(a)
#define CHECK(x) check((x), #x, __LINE__)

static int failures;
static int checks;

static void check(int holds, const char *text, int line)
{
    checks++;
    if (!holds) {
        failures++;
        printf("line %d: %s\n", line, text);
    }
}

/* A path's record with its columns, for ten records of each kind. */
typedef struct world {
    mochaspit_path_tpc path;
    double offsets[10];
    uint32_t numbers[40];
    double grades[30];
    double curves[30];
    double speeds[20];
    double powers[30];
    uint32_t districts[10];
} world;

#define FLAT(w) \
    COLUMN((w)->offsets), COLUMN((w)->numbers), COLUMN((w)->grades), COLUMN((w)->curves), COLUMN((w)->speeds), COLUMN((w)->powers), \
    COLUMN((w)->districts)

static mochaspit_columns columns_of(world *w)
{
    mochaspit_columns c;
    MOCHASPIT_LEND(c, offsets, w->offsets);
    MOCHASPIT_LEND(c, numbers, w->numbers);
    MOCHASPIT_LEND(c, grades, w->grades);
    MOCHASPIT_LEND(c, curves, w->curves);
    MOCHASPIT_LEND(c, speeds, w->speeds);
    MOCHASPIT_LEND(c, powers, w->powers);
    MOCHASPIT_LEND(c, districts, w->districts);
    return c;
}

/* Sevens in every column. */
static world sevens(void)
{
    static world w;
    size_t i;
    for (i = 0; i < 30; i++) {
        w.grades[i] = w.curves[i] = w.powers[i] = 7;
        w.numbers[i] = w.numbers[i + 10] = 7;
    }
    for (i = 0; i < 20; i++)
        w.speeds[i] = 7;
    for (i = 0; i < 10; i++) {
        w.offsets[i] = 7;
        w.districts[i] = 7;
    }
    return w;
}

static int same_columns(const world *a, const world *b)
{
    return !memcmp(a->offsets, b->offsets, sizeof a->offsets) && !memcmp(a->numbers, b->numbers, sizeof a->numbers)
        && !memcmp(a->grades, b->grades, sizeof a->grades) && !memcmp(a->curves, b->curves, sizeof a->curves)
        && !memcmp(a->speeds, b->speeds, sizeof a->speeds) && !memcmp(a->powers, b->powers, sizeof a->powers)
        && !memcmp(a->districts, b->districts, sizeof a->districts);
}

/* Two links of 100 m and 150 m, with records in every pool, no two pools alike: three limits, two for trains of 40 axles or more. */
static const uint32_t links[] = {
    0, 0, 0, 0, 0, 0, 0, 0, 0, 0, 0,
    1, 2, 0, 0, 0, 0, 3, 0, 2, 0, 1,
    2, 0, 0, 1, 0, 3, 2, 2, 2, 1, 2,
};
static const double lengths[] = {0, 100, 150};
static uint32_t sets[3 * MOCHASPIT_SETS_WIDTH];
static const double elevs[] = {0, 10, 40, 12, 100, 11, 0, 11, 150, 14};
static const double headings[] = {0, 0.1, 100, 0.2, 0, 0.2, 150, 0.5};
static const double limits[] = {90, 100, 15, 10, 20, 12, 30, 140, 25};
static const uint32_t codes[] = {MOCHASPIT_KIND_AXLES, MOCHASPIT_COMPARE_NOT_BELOW};
static const double values[] = {40};
static const double link_powers[] = {0, 50, 1e6, 20, 90, 2e6, 30, 60, 3e6};
static const uint32_t link_districts[] = {3, 4, 5};

#define FLAT_TABLE \
    COLUMN(links), COLUMN(lengths), COLUMN(sets), COLUMN(elevs), COLUMN(headings), COLUMN(limits), COLUMN(codes), COLUMN(values), \
    COLUMN(link_powers), COLUMN(link_districts)

static void single_set(size_t link, uint32_t head_end, uint32_t conditions, uint32_t first, uint32_t count)
{
    uint32_t *place = sets + link * MOCHASPIT_SETS_WIDTH;
    place[0] = 1;
    place[1] = head_end;
    place[2] = 0;
    place[3] = conditions;
    place[4] = first;
    place[5] = count;
}

static mochaspit_table table_of(void)
{
    mochaspit_table t;
    single_set(1, 0, 1, 0, 2);
    single_set(2, 1, 0, 2, 1);
    MOCHASPIT_LEND(t, links, links);
    MOCHASPIT_LEND(t, lengths, lengths);
    MOCHASPIT_LEND(t, sets, sets);
    MOCHASPIT_LEND(t, elevs, elevs);
    MOCHASPIT_LEND(t, headings, headings);
    MOCHASPIT_LEND(t, limits, limits);
    MOCHASPIT_LEND(t, codes, codes);
    MOCHASPIT_LEND(t, values, values);
    MOCHASPIT_LEND(t, link_powers, link_powers);
    MOCHASPIT_LEND(t, link_districts, link_districts);
    return t;
}

static mochaspit_train train_of(void)
{
    static mochaspit_train train;
    train.length = 20;
    train.speed_max = 30;
    train.towed_mass_static = 8e5;
    train.mass_per_brake = 1e4;
    train.curve_coeff_0 = 0.5;
    train.curve_coeff_1 = 0.7;
    train.curve_coeff_2 = 11;
    train.axle_count = 40;
    train.train_type = MOCHASPIT_TYPE_FREIGHT;
    return train;
}

static mochaspit_train_state state_at(double offset)
{
    static mochaspit_train_state state;
    state.offset = offset;
    state.offset_back = offset - 20;
    state.length = 20;
    state.weight_static = 8e6;
    return state;
}

/* A path of both links. */
static world joined(void)
{
    const uint32_t list[] = {1, 2};
    const mochaspit_table t = table_of();
    world w = sevens();
    const mochaspit_columns c = columns_of(&w);
    mochaspit_path_answer made = mochaspit_path_new(train_of(), &c);
    CHECK(made.answer.number == MOCHASPIT_DONE);
    made = mochaspit_path_extend(made.path, train_of(), COLUMN(list), &c, &t);
    CHECK(made.answer.number == MOCHASPIT_DONE && made.path.link_count == 3 && made.path.power_count == 3);
    CHECK(made.path.grade_count == 4 && made.path.curve_count == 3 && made.path.speed_count == 7);
    w.path = made.path;
    return w;
}

/* ---- answers as words, so that two can be compared bit for bit */

typedef struct words {
    uint64_t word[24];
    size_t count;
} words;

static void put(words *out, uint64_t word)
{
    out->word[out->count++] = word;
}

static void put_f64(words *out, double x)
{
    uint64_t word;
    memcpy(&word, &x, sizeof word);
    put(out, word);
}

static words of_answer(mochaspit_answer answer)
{
    words out;
    memset(&out, 0, sizeof out);
    put(&out, answer.number);
    put(&out, answer.place);
    return out;
}

static words of_path(mochaspit_path_answer a)
{
    words out = of_answer(a.answer);
    put(&out, a.path.link_count);
    put(&out, a.path.grade_count);
    put(&out, a.path.curve_count);
    put(&out, a.path.speed_count);
    put(&out, a.path.power_count);
    put(&out, a.path.is_finished);
    return out;
}

static words of_clear(mochaspit_clear_answer a)
{
    words out = of_path(a.outcome);
    put_f64(&out, a.dropped.offset);
    put(&out, a.dropped.grade_count);
    put(&out, a.dropped.curve_count);
    put(&out, a.dropped.cat_power_count);
    put(&out, a.dropped.link_idx);
    return out;
}

static words of_range(mochaspit_range_answer a)
{
    words out = of_answer(a.answer);
    put(&out, a.range.from);
    put(&out, a.range.len);
    return out;
}

static words of_state(mochaspit_state_answer a)
{
    words out = of_answer(a.answer);
    put_f64(&out, a.state.offset);
    put_f64(&out, a.state.offset_back);
    put_f64(&out, a.state.length);
    put_f64(&out, a.state.weight_static);
    put(&out, a.state.link_idx_front);
    put(&out, a.state.link_idx_back);
    put_f64(&out, a.state.offset_in_link);
    return out;
}

static words of_f64(mochaspit_answer answer, double x)
{
    words out = of_answer(answer);
    put_f64(&out, x);
    return out;
}

static words of_two(mochaspit_answer answer, size_t x, size_t y)
{
    words out = of_answer(answer);
    put(&out, x);
    put(&out, y);
    return out;
}

static words of_coeff(mochaspit_coeff_answer a) { return of_f64(a.answer, a.res_coeff); }
static words of_net(mochaspit_net_answer a) { return of_f64(a.answer, a.res_net); }
static words of_posted(mochaspit_posted_answer a) { return of_f64(a.answer, a.speed); }
static words of_searched(mochaspit_searched a) { return of_two(a.answer, a.idx, 0); }
static words of_point(mochaspit_point_answer a) { return of_two(a.answer, a.point.idx, 0); }
static words of_strap(mochaspit_strap_answer a) { return of_two(a.answer, a.strap.idx_front, a.strap.idx_back); }

static words of_point_res(mochaspit_point_res a)
{
    words out = of_two(a.answer, a.point.idx, 0);
    put_f64(&out, a.res);
    return out;
}

static words of_strap_res(mochaspit_strap_res a)
{
    words out = of_two(a.answer, a.strap.idx_front, a.strap.idx_back);
    put_f64(&out, a.res);
    return out;
}

static int same(words a, words b)
{
    return a.count == b.count && !memcmp(a.word, b.word, sizeof a.word);
}

/* ---- each call with structs against its flat call */

/* A call that may change a path, on two copies of it: number is what both must answer. */
#define SAME_CHANGE(of, number, with_structs, flat) \
    do { \
        world a = start, b = start; \
        const mochaspit_columns c = columns_of(&a); \
        const words left = of(with_structs), right = of(flat); \
        CHECK(left.word[0] == (number) && same(left, right) && same_columns(&a, &b)); \
    } while (0)

/* A call that only reads, on one copy. */
#define SAME(of, number, with_structs, flat) \
    do { \
        const words left = of(with_structs), right = of(flat); \
        CHECK(left.word[0] == (number) && same(left, right)); \
    } while (0)

static void changing_calls(world start, uint32_t number)
{
    const mochaspit_table t = table_of();
    const mochaspit_train train = train_of();
    const mochaspit_path_tpc path = start.path;
    const uint32_t none[] = {0};
    const uint32_t other[] = {9, 8, 7};
    const double xs[] = {30, 130};
    SAME_CHANGE(of_path, 0, mochaspit_path_new(train, &c), mochaspit_new(train, FLAT(&b)));
    SAME_CHANGE(of_path, number, mochaspit_path_extend(path, train, none, 0, &c, &t), mochaspit_extend(path, train, none, 0, FLAT(&b), FLAT_TABLE));
    SAME_CHANGE(of_path, number, mochaspit_path_recalc_speeds(path, train, &c, &t), mochaspit_recalc_speeds(path, train, FLAT(&b), FLAT_TABLE));
    SAME_CHANGE(of_path, number, mochaspit_path_reindex(path, COLUMN(other), &c), mochaspit_reindex(path, COLUMN(other), FLAT(&b)));
    SAME_CHANGE(of_path, number, mochaspit_path_finish(path, &c), mochaspit_finish(path, FLAT(&b)));
    SAME_CHANGE(of_clear, number, mochaspit_path_clear(path, 130, &c), mochaspit_clear(path, 130, FLAT(&b)));
    SAME_CHANGE(of_clear, number, mochaspit_path_clear_each(path, COLUMN(xs), &c), mochaspit_clear_each(path, COLUMN(xs), FLAT(&b)));
}

/* The first links of a path: with them every column of the table is read. */
static void first_links(void)
{
    const mochaspit_table t = table_of();
    const uint32_t list[] = {1, 2};
    const uint32_t wrong[] = {1, 3};
    mochaspit_train train = train_of();
    world start = sevens();
    const mochaspit_columns lent = columns_of(&start);
    const mochaspit_path_tpc path = mochaspit_path_new(train, &lent).path;
    SAME_CHANGE(of_path, 0, mochaspit_path_extend(path, train, COLUMN(list), &c, &t), mochaspit_extend(path, train, COLUMN(list), FLAT(&b), FLAT_TABLE));
    SAME_CHANGE(of_path, 4, mochaspit_path_extend(path, train, COLUMN(wrong), &c, &t), mochaspit_extend(path, train, COLUMN(wrong), FLAT(&b), FLAT_TABLE));
    train.axle_count = 39;
    SAME_CHANGE(of_path, 0, mochaspit_path_extend(path, train, COLUMN(list), &c, &t), mochaspit_extend(path, train, COLUMN(list), FLAT(&b), FLAT_TABLE));
}

static void reading_calls(world w, uint32_t number)
{
    const mochaspit_columns c = columns_of(&w);
    const mochaspit_train_state s = state_at(125);
    SAME(of_range, number, mochaspit_path_link_grades(w.path, 1, &c), mochaspit_link_grades(w.path, 1, FLAT(&w)));
    SAME(of_range, number, mochaspit_path_link_curves(w.path, 1, &c), mochaspit_link_curves(w.path, 1, FLAT(&w)));
    SAME(of_posted, number, mochaspit_path_posted_speed(w.path, 95, &c), mochaspit_posted_speed(w.path, 95, FLAT(&w)));
    SAME(of_state, number, mochaspit_path_set_link_and_offset(s, w.path, &c), mochaspit_set_link_and_offset(s, w.path, FLAT(&w)));
}

static void list_calls(mochaspit_list l, const double *col, size_t len, size_t n, uint32_t number)
{
    const mochaspit_train_state s = state_at(125);
    const mochaspit_point p = {1};
    const mochaspit_strap q = {1, 0};
    const uint32_t dir = MOCHASPIT_DIR_FORWARDS;
    SAME(of_searched, number, mochaspit_list_calc_idx(l, 125, 0, dir), mochaspit_calc_idx(col, len, n, 125, 0, dir));
    SAME(of_point, number, mochaspit_list_point_new(l, s), mochaspit_point_new(col, len, n, s));
    SAME(of_point_res, number, mochaspit_list_point_calc_res(p, l, s, dir), mochaspit_point_calc_res(p, col, len, n, s, dir));
    SAME(of_coeff, number, mochaspit_list_point_res_coeff_front(p, l), mochaspit_point_res_coeff_front(p, col, len, n));
    SAME(of_net, number, mochaspit_list_point_res_net_front(p, l, s), mochaspit_point_res_net_front(p, col, len, n, s));
    SAME(of_strap, number, mochaspit_list_strap_new(l, s), mochaspit_strap_new(col, len, n, s));
    SAME(of_strap_res, number, mochaspit_list_strap_calc_res(q, l, s, dir), mochaspit_strap_calc_res(q, col, len, n, s, dir));
    SAME(of_strap_res, number, mochaspit_list_strap_walk(q, l, s, dir, 2, 9), mochaspit_strap_walk(q, col, len, n, s, dir, 2, 9));
    SAME(of_coeff, number, mochaspit_list_strap_res_coeff_front(q, l), mochaspit_strap_res_coeff_front(q, col, len, n));
    SAME(of_coeff, number, mochaspit_list_strap_res_coeff_back(q, l), mochaspit_strap_res_coeff_back(q, col, len, n));
    SAME(of_net, number, mochaspit_list_strap_res_net_front(q, l, s), mochaspit_strap_res_net_front(q, col, len, n, s));
    SAME(of_net, number, mochaspit_list_strap_res_net_back(q, l, s), mochaspit_strap_res_net_back(q, col, len, n, s));
}

static void calls_with_structs(void)
{
    world w = joined();
    const mochaspit_columns c = columns_of(&w);
    first_links();
    changing_calls(w, MOCHASPIT_DONE);
    reading_calls(w, MOCHASPIT_DONE);
    list_calls(mochaspit_path_grades(w.path, &c), COLUMN(w.grades), w.path.grade_count, MOCHASPIT_DONE);
    list_calls(mochaspit_path_curves(w.path, &c), COLUMN(w.curves), w.path.curve_count, MOCHASPIT_DONE);
    w.path.grade_count = 11;
    changing_calls(w, MOCHASPIT_UNSOUND);
    reading_calls(w, MOCHASPIT_UNSOUND);
    list_calls(mochaspit_path_grades(w.path, &c), COLUMN(w.grades), w.path.grade_count, MOCHASPIT_UNSOUND);
    w.grades[1] = NAN;
    changing_calls(w, MOCHASPIT_BAD_NUMBER);
    reading_calls(w, MOCHASPIT_BAD_NUMBER);
}

/* ---- NULL columns */

/* Every column NULL, with these lengths, which do not count then. */
static mochaspit_columns no_columns(size_t len)
{
    static mochaspit_columns c;
    c.offsets_len = c.numbers_len = c.grades_len = c.curves_len = c.speeds_len = c.powers_len = c.districts_len = len;
    return c;
}

static void all_columns_null(size_t len)
{
    static mochaspit_table none;
    static mochaspit_path_tpc zeros;
    const mochaspit_columns c = no_columns(len);
    const mochaspit_table t = table_of();
    const mochaspit_train train = train_of();
    mochaspit_path_tpc path = joined().path;
    int i;
    CHECK(mochaspit_path_new(train, &c).answer.number == MOCHASPIT_NO_ROOM);
    for (i = 0; i < 2; i++, path = zeros) {
        CHECK(mochaspit_path_extend(path, train, NULL, len, &c, &t).answer.number == MOCHASPIT_UNSOUND);
        CHECK(mochaspit_path_extend(path, train, NULL, len, &c, &none).answer.number == MOCHASPIT_UNSOUND);
        CHECK(mochaspit_path_clear(path, 130, &c).outcome.answer.number == MOCHASPIT_UNSOUND);
        CHECK(mochaspit_path_clear_each(path, NULL, len, &c).outcome.answer.number == MOCHASPIT_UNSOUND);
        CHECK(mochaspit_path_finish(path, &c).answer.number == MOCHASPIT_UNSOUND);
        CHECK(mochaspit_path_recalc_speeds(path, train, &c, &none).answer.number == MOCHASPIT_UNSOUND);
        CHECK(mochaspit_path_reindex(path, NULL, len, &c).answer.number == MOCHASPIT_UNSOUND);
        CHECK(mochaspit_path_link_grades(path, 0, &c).answer.number == MOCHASPIT_UNSOUND);
        CHECK(mochaspit_path_link_curves(path, 0, &c).answer.number == MOCHASPIT_UNSOUND);
        CHECK(mochaspit_path_posted_speed(path, 95, &c).answer.number == MOCHASPIT_UNSOUND);
        CHECK(mochaspit_path_set_link_and_offset(state_at(125), path, &c).answer.number == MOCHASPIT_UNSOUND);
        CHECK(mochaspit_list_strap_new(mochaspit_path_grades(path, &c), state_at(125)).answer.number == MOCHASPIT_UNSOUND);
        CHECK(mochaspit_list_calc_idx(mochaspit_path_curves(path, &c), 0, 0, 1).answer.number == MOCHASPIT_UNSOUND);
    }
}

/* One column NULL: no path can be made or read without it, but for the columns of power limits where there are none. */
static void one_column_null(void)
{
    const mochaspit_train train = train_of();
    int i;
    for (i = 0; i < 7; i++) {
        world w = joined();
        mochaspit_columns c = columns_of(&w);
        const uint32_t made = i < 5 ? MOCHASPIT_NO_ROOM : MOCHASPIT_DONE;
        if (i == 0) c.offsets = NULL;
        if (i == 1) c.numbers = NULL;
        if (i == 2) c.grades = NULL;
        if (i == 3) c.curves = NULL;
        if (i == 4) c.speeds = NULL;
        if (i == 5) c.powers = NULL;
        if (i == 6) c.districts = NULL;
        CHECK(mochaspit_path_posted_speed(w.path, 95, &c).answer.number == MOCHASPIT_UNSOUND);
        CHECK(mochaspit_path_finish(w.path, &c).answer.number == MOCHASPIT_UNSOUND);
        CHECK(mochaspit_path_new(train, &c).answer.number == made);
    }
}

/* Tables with NULL columns: the links are not in the table, or not well formed where they have records in a pool. */
static void table_columns_null(void)
{
    const uint32_t list[] = {1, 2};
    const mochaspit_train train = train_of();
    world w = sevens();
    const mochaspit_columns c = columns_of(&w);
    const mochaspit_path_tpc path = mochaspit_path_new(train, &c).path;
    int i;
    for (i = 0; i < 10; i++) {
        mochaspit_table t = table_of();
        const uint32_t number = i < 3 ? MOCHASPIT_NO_SUCH_LINK : MOCHASPIT_MALFORMED_LINK;
        if (i == 0) t.links = NULL;
        if (i == 1) t.lengths = NULL;
        if (i == 2) t.sets = NULL;
        if (i == 3) t.elevs = NULL;
        if (i == 4) t.headings = NULL;
        if (i == 5) t.limits = NULL;
        if (i == 6) t.codes = NULL;
        if (i == 7) t.values = NULL;
        if (i == 8) t.link_powers = NULL;
        if (i == 9) t.link_districts = NULL;
        CHECK(mochaspit_path_extend(path, train, COLUMN(list), &c, &t).answer.number == number);
        CHECK(mochaspit_path_extend(path, train, NULL, 0, &c, &t).answer.number == MOCHASPIT_DONE);
    }
}

/* Lists that are NULL have no entries: nothing is joined or dropped, and no link gets another number. */
static void lists_null(void)
{
    static mochaspit_list none;
    const mochaspit_table t = table_of();
    world w = joined();
    const mochaspit_columns c = columns_of(&w);
    CHECK(same(of_path(mochaspit_path_extend(w.path, train_of(), NULL, 5, &c, &t)), of_path(mochaspit_path_extend(w.path, train_of(), NULL, 0, &c, &t))));
    CHECK(mochaspit_path_clear_each(w.path, NULL, 5, &c).dropped.grade_count == 0);
    CHECK(mochaspit_path_clear_each(w.path, NULL, 0, &c).outcome.answer.number == MOCHASPIT_DONE);
    CHECK(mochaspit_path_reindex(w.path, NULL, 0, &c).answer.number == MOCHASPIT_NO_SUCH_LINK);
    CHECK(mochaspit_path_posted_speed(w.path, 95, &c).speed == 15);
    for (none.n = 0; none.n < 3; none.n++)
        CHECK(mochaspit_list_calc_idx(none, 0, 0, MOCHASPIT_DIR_FORWARDS).answer.number == MOCHASPIT_UNSOUND);
}

/* ---- texts and version, and a record that is out of date */

static void texts(void)
{
    const char *none = mochaspit_text(MOCHASPIT_NO_LINKS + 1);
    char version[32];
    uint32_t i, k;
    for (i = MOCHASPIT_DONE; i <= MOCHASPIT_NO_LINKS; i++) {
        CHECK(strlen(mochaspit_text(i)) >= 4 && strcmp(mochaspit_text(i), none) != 0);
        for (k = 0; k < i; k++)
            CHECK(strcmp(mochaspit_text(i), mochaspit_text(k)) != 0);
    }
    CHECK(strcmp(mochaspit_text(0), "done") == 0);
    CHECK(strcmp(mochaspit_text(UINT32_MAX), none) == 0);
    sprintf(version, "%d.%d.%d", MOCHASPIT_VERSION_MAJOR, MOCHASPIT_VERSION_MINOR, MOCHASPIT_VERSION_PATCH);
    CHECK(strcmp(version, MOCHASPIT_VERSION) == 0);
}

/* What the header says of records: one from before a recalculation passes questions 1 and 2, and loses four of five speed points. */
static void old_record(void)
{
    const uint32_t list[] = {1};
    const mochaspit_train train = train_of();
    world w = sevens();
    const mochaspit_columns c = columns_of(&w);
    const mochaspit_table t = table_of();
    mochaspit_path_answer made = mochaspit_path_new(train, &c);
    mochaspit_path_tpc before;
    single_set(1, 0, 0, 0, 0);
    made = mochaspit_path_extend(made.path, train, COLUMN(list), &c, &t);
    CHECK(made.answer.number == MOCHASPIT_DONE && made.path.speed_count == 1);
    before = made.path;
    single_set(1, 0, 0, 0, 2);
    made = mochaspit_path_recalc_speeds(before, train, &c, &t);
    CHECK(made.answer.number == MOCHASPIT_DONE && made.path.speed_count == 5);
    CHECK(mochaspit_path_posted_speed(made.path, 15, &c).speed == 12 && mochaspit_path_posted_speed(made.path, 95, &c).speed == 15);
    CHECK(mochaspit_path_posted_speed(before, 15, &c).answer.number == MOCHASPIT_DONE);
    CHECK(mochaspit_path_posted_speed(before, 15, &c).speed == 30 && mochaspit_path_posted_speed(before, 95, &c).speed == 30);
    made = mochaspit_path_finish(before, &c);
    CHECK(made.answer.number == MOCHASPIT_DONE && made.path.speed_count == 1);
    CHECK(w.speeds[1] == 30 && w.speeds[2] == 0 && w.speeds[3] == 0 && w.speeds[8] == 0 && w.speeds[9] == 0);
}

int main(void)
{
    calls_with_structs();
    all_columns_null(0);
    all_columns_null(10);
    one_column_null();
    table_columns_null();
    lists_null();
    texts();
    old_record();
    printf("%d checks, %d failed\n", checks, failures);
    return failures == 0 ? EXIT_SUCCESS : EXIT_FAILURE;
}
