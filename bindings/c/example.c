/*
 * Two links, one limit: a path is made, extended and cut, and the grade resistance on a train is taken. C99 and C++11.
 *
 * At the repository's root, with the archive that `rt lib` writes in crates/capi:
 *   gcc -std=c99 -Wall -Wextra -pedantic bindings/c/example.c -I include -L crates/capi/out -lcapi -o example
 * Or once `tools/install PREFIX` has installed it, with PREFIX/lib/pkgconfig in PKG_CONFIG_PATH:
 *   gcc -std=c99 -Wall -Wextra -pedantic bindings/c/example.c $(pkg-config --cflags --libs mochaspit) -o example
 */
#include <mochaspit.h>
#include <stdio.h>
#include <stdlib.h>

/* A path's columns, up to the bounds. */
static double offsets[MOCHASPIT_LINK_POINTS];
static uint32_t numbers[MOCHASPIT_LINK_POINTS * MOCHASPIT_NUMBERS_WIDTH];
static double grades[MOCHASPIT_GRADES * MOCHASPIT_COEFF_WIDTH];
static double curves[MOCHASPIT_CURVES * MOCHASPIT_COEFF_WIDTH];
static double speeds[MOCHASPIT_SPEED_POINTS * MOCHASPIT_SPEED_WIDTH];
static double powers[MOCHASPIT_POWER_LIMITS * MOCHASPIT_POWER_WIDTH];
static uint32_t districts[MOCHASPIT_POWER_LIMITS];
static mochaspit_columns columns;

/* The link table. Link 1: 100 m, elevations 0 and 1, one limit. Link 2: 150 m behind it, elevations 2 and 3, no limit. */
static const uint32_t links[3 * MOCHASPIT_LINK_WIDTH] = {
    0, 0, 0, 0, 0, 0, 0, 0, 0, 0, 0,
    1, 2, 0, 0, 0, 0, 2, 0, 0, 0, 0,
    2, 0, 0, 1, 0, 2, 2, 0, 0, 0, 0,
};
static const double lengths[3] = {0, 100, 150};
static uint32_t sets[3 * MOCHASPIT_SETS_WIDTH];
static const double elevs[] = {0, 10, 100, 11, 0, 11, 150, 14};
static const double limits[] = {90, 100, 15};
static mochaspit_table table;

/* Place 0 of a link is its single set: present, no head-end set, no conditions, and first and count of its limits. */
static void single_set(size_t link, uint32_t first, uint32_t count)
{
    uint32_t *place = sets + link * MOCHASPIT_SETS_WIDTH;
    place[0] = 1;
    place[4] = first;
    place[5] = count;
}

/* Columns and table. There are no headings, conditions and power limits: these pools stay NULL. */
static void lend(void)
{
    MOCHASPIT_LEND(columns, offsets, offsets);
    MOCHASPIT_LEND(columns, numbers, numbers);
    MOCHASPIT_LEND(columns, grades, grades);
    MOCHASPIT_LEND(columns, curves, curves);
    MOCHASPIT_LEND(columns, speeds, speeds);
    MOCHASPIT_LEND(columns, powers, powers);
    MOCHASPIT_LEND(columns, districts, districts);
    MOCHASPIT_LEND(table, links, links);
    MOCHASPIT_LEND(table, lengths, lengths);
    MOCHASPIT_LEND(table, sets, sets);
    MOCHASPIT_LEND(table, elevs, elevs);
    MOCHASPIT_LEND(table, limits, limits);
    single_set(1, 0, 1);
    single_set(2, 1, 0);
}

/* Ends the program if a call that should be done was refused. */
static void expect_done(const char *call, mochaspit_answer answer)
{
    if (answer.number != MOCHASPIT_DONE) {
        printf("%s: refused with %u at place %zu: %s\n", call, (unsigned)answer.number, answer.place, mochaspit_text(answer.number));
        exit(EXIT_FAILURE);
    }
}

static void print_speeds(const char *title, mochaspit_path_tpc path)
{
    printf("%s:", title);
    for (size_t i = 0; i < path.speed_count; i++)
        printf(" %g m/s from %g m", speeds[2 * i + 1], speeds[2 * i]);
    printf("\n");
}

/* A path of both links. */
static mochaspit_path_tpc joined(mochaspit_train train)
{
    const uint32_t list[] = {1, 2};
    mochaspit_path_answer made = mochaspit_path_new(train, &columns);
    expect_done("new", made.answer);
    made = mochaspit_path_extend(made.path, train, list, 2, &columns, &table);
    expect_done("extend", made.answer);
    return made.path;
}

static void print_force(mochaspit_strap_res res)
{
    expect_done("strap_calc_res", res.answer);
    printf("grade resistance: %g N, front in record %zu, back in record %zu\n", res.res, res.strap.idx_front, res.strap.idx_back);
}

/* The grade resistance on the train, before and after the links behind it are dropped. */
static mochaspit_path_tpc climb(mochaspit_path_tpc path, mochaspit_train_state state)
{
    mochaspit_list list = mochaspit_path_grades(path, &columns);
    mochaspit_strap_answer strap = mochaspit_list_strap_new(list, state);
    expect_done("strap_new", strap.answer);
    mochaspit_strap_res res = mochaspit_list_strap_calc_res(strap.strap, list, state, MOCHASPIT_DIR_FORWARDS);
    print_force(res);

    mochaspit_clear_answer cut = mochaspit_path_clear(path, state.offset_back, &columns);
    expect_done("clear", cut.outcome.answer);
    printf("dropped: %zu grades, %zu curves, %zu power limits\n",
        cut.dropped.grade_count, cut.dropped.curve_count, cut.dropped.cat_power_count);
    /* the path's record and its lists are others now, and the strap's indices fall */
    path = cut.outcome.path;
    list = mochaspit_path_grades(path, &columns);
    strap = mochaspit_strap_fix_cache(res.strap, cut.dropped.grade_count);
    expect_done("strap_fix_cache", strap.answer);
    print_force(mochaspit_list_strap_calc_res(strap.strap, list, state, MOCHASPIT_DIR_FORWARDS));
    return path;
}

/* What is at the train: its link, the posted speed, and the first link's grades. */
static void look(mochaspit_path_tpc path, mochaspit_train_state state)
{
    mochaspit_state_answer located = mochaspit_path_set_link_and_offset(state, path, &columns);
    expect_done("set_link_and_offset", located.answer);
    printf("front: link %u, %g m from its beginning\n", (unsigned)located.state.link_idx_front, located.state.offset_in_link);

    mochaspit_posted_answer posted = mochaspit_path_posted_speed(path, state.offset, &columns);
    expect_done("posted_speed", posted.answer);
    printf("posted at the front: %g m/s\n", posted.speed);

    mochaspit_range_answer own = mochaspit_path_link_grades(path, 0, &columns);
    expect_done("link_grades", own.answer);
    printf("grades of the first link: %zu, rising %g to the metre\n", own.range.len / MOCHASPIT_COEFF_WIDTH, grades[own.range.from + 1]);
}

int main(void)
{
    static mochaspit_train train;
    static mochaspit_train_state state;
    const uint32_t unknown[] = {9};
    lend();
    train.length = 20;
    train.speed_max = 30;
    train.towed_mass_static = 8e5;
    train.mass_per_brake = 1e4;
    train.axle_count = 40;
    train.train_type = MOCHASPIT_TYPE_FREIGHT;
    mochaspit_path_tpc path = joined(train);
    print_speeds("joined", path);

    state.offset = 125;
    state.offset_back = 105;
    state.length = train.length;
    state.weight_static = 8e6;
    path = climb(path, state);
    print_speeds("cut", path);
    look(path, state);

    mochaspit_path_answer refused = mochaspit_path_extend(path, train, unknown, 1, &columns, &table);
    printf("link 9: refused with %u at place %zu: %s\n", (unsigned)refused.answer.number, refused.answer.place,
        mochaspit_text(refused.answer.number));
    return refused.answer.number == MOCHASPIT_NO_SUCH_LINK ? EXIT_SUCCESS : EXIT_FAILURE;
}
