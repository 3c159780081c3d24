/*
 * Slips that a compiler must find: with SLIP 1 to 10 this file must not compile with -Werror, with SLIP 0 it must. bindings/c/run says which
 * message each must have. C99 and C++11.
 */
#include <mochaspit.h>

#ifndef SLIP
#define SLIP 0
#endif

/* A caller with a path and everything that calls take. */
uint32_t caller(mochaspit_path_tpc path, mochaspit_train train, mochaspit_train_state state, mochaspit_columns columns, mochaspit_table table);

uint32_t caller(mochaspit_path_tpc path, mochaspit_train train, mochaspit_train_state state, mochaspit_columns columns, mochaspit_table table)
{
    const uint32_t links[] = {1};
    mochaspit_path_answer done = mochaspit_path_extend(path, train, links, 1, &columns, &table);
    mochaspit_strap_answer strap = mochaspit_list_strap_new(mochaspit_path_grades(done.path, &columns), state);
#if SLIP == 1 /* the record that comes back is not kept */
    mochaspit_path_recalc_speeds(path, train, &columns, &table);
#elif SLIP == 2 /* the same with a flat call */
    mochaspit_strap_fix_cache(strap.strap, 1);
#elif SLIP == 3 /* the same with a list */
    mochaspit_list_strap_calc_res(strap.strap, mochaspit_path_grades(done.path, &columns), state, MOCHASPIT_DIR_FORWARDS);
#elif SLIP == 4 /* columns and table exchanged */
    done = mochaspit_path_extend(path, train, links, 1, &table, &columns);
#elif SLIP == 5 /* a column where all seven are wanted: there is no place for grades where curves should be */
    done = mochaspit_path_new(train, columns.grades);
#elif SLIP == 6 /* a column of whole numbers as grades */
    columns.grades = columns.numbers;
#elif SLIP == 7 /* a column where a list is wanted: no count of curves can come with the grades */
    strap = mochaspit_list_strap_new(columns.grades, state);
#elif SLIP == 8 /* no columns at all */
    done = mochaspit_path_new(train, NULL);
#elif SLIP == 9 /* NULL in a flat call */
    strap = mochaspit_strap_new(NULL, 0, 0, state);
#elif SLIP == 10 /* a pointer as an array, whose length no compiler knows */
    double *my_grades = columns.grades;
    MOCHASPIT_LEND(columns, grades, my_grades);
#endif
    return done.answer.number + strap.answer.number;
}
