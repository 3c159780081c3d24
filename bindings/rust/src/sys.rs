//! The C interface as it is: include/mochaspit.h says what each call does. Safe forms of these calls are in the crate's root.

#[repr(C)]
#[derive(Clone, Copy, Debug, Default, PartialEq, Eq)]
pub struct PathTpc {
    pub link_count: usize,
    pub grade_count: usize,
    pub curve_count: usize,
    pub speed_count: usize,
    pub power_count: usize,
    pub is_finished: bool,
}

#[repr(C)]
#[derive(Clone, Copy, Debug, Default, PartialEq, Eq)]
pub struct Answer {
    pub number: u32,
    pub place: usize,
}

#[repr(C)]
#[derive(Clone, Copy, Debug, Default)]
pub struct PathAnswer {
    pub answer: Answer,
    pub path: PathTpc,
}

#[repr(C)]
#[derive(Clone, Copy, Debug, Default)]
pub struct LinkPoint {
    pub offset: f64,
    pub grade_count: usize,
    pub curve_count: usize,
    pub cat_power_count: usize,
    pub link_idx: u32,
}

#[repr(C)]
#[derive(Clone, Copy, Debug, Default)]
pub struct ClearAnswer {
    pub outcome: PathAnswer,
    pub dropped: LinkPoint,
}

#[repr(C)]
#[derive(Clone, Copy, Debug, Default)]
pub struct Train {
    pub length: f64,
    pub speed_max: f64,
    pub towed_mass_static: f64,
    pub mass_per_brake: f64,
    pub curve_coeff_0: f64,
    pub curve_coeff_1: f64,
    pub curve_coeff_2: f64,
    pub axle_count: u32,
    pub train_type: u32,
}

#[repr(C)]
#[derive(Clone, Copy, Debug, Default)]
pub struct TrainState {
    pub offset: f64,
    pub offset_back: f64,
    pub length: f64,
    pub weight_static: f64,
    pub link_idx_front: u32,
    pub link_idx_back: u32,
    pub offset_in_link: f64,
}

#[repr(C)]
#[derive(Clone, Copy, Debug, Default)]
pub struct StateAnswer {
    pub answer: Answer,
    pub state: TrainState,
}

#[repr(C)]
#[derive(Clone, Copy, Debug, Default, PartialEq, Eq)]
pub struct Range {
    pub from: usize,
    pub len: usize,
}

#[repr(C)]
#[derive(Clone, Copy, Debug, Default)]
pub struct RangeAnswer {
    pub answer: Answer,
    pub range: Range,
}

#[repr(C)]
#[derive(Clone, Copy, Debug, Default)]
pub struct PostedAnswer {
    pub answer: Answer,
    pub speed: f64,
}

#[repr(C)]
#[derive(Clone, Copy, Debug, Default)]
pub struct Searched {
    pub answer: Answer,
    pub idx: usize,
}

#[repr(C)]
#[derive(Clone, Copy, Debug, Default)]
pub struct CoeffAnswer {
    pub answer: Answer,
    pub res_coeff: f64,
}

#[repr(C)]
#[derive(Clone, Copy, Debug, Default)]
pub struct NetAnswer {
    pub answer: Answer,
    pub res_net: f64,
}

#[repr(C)]
#[derive(Clone, Copy, Debug, Default, PartialEq, Eq)]
pub struct Point {
    pub idx: usize,
}

#[repr(C)]
#[derive(Clone, Copy, Debug, Default)]
pub struct PointAnswer {
    pub answer: Answer,
    pub point: Point,
}

#[repr(C)]
#[derive(Clone, Copy, Debug, Default)]
pub struct PointRes {
    pub answer: Answer,
    pub point: Point,
    pub res: f64,
}

#[repr(C)]
#[derive(Clone, Copy, Debug, Default, PartialEq, Eq)]
pub struct Strap {
    pub idx_front: usize,
    pub idx_back: usize,
}

#[repr(C)]
#[derive(Clone, Copy, Debug, Default)]
pub struct StrapAnswer {
    pub answer: Answer,
    pub strap: Strap,
}

#[repr(C)]
#[derive(Clone, Copy, Debug, Default)]
pub struct StrapRes {
    pub answer: Answer,
    pub strap: Strap,
    pub res: f64,
}

/// Declares a call with the path's seven columns, lent to be written or to be read, and with or without a link table.
macro_rules! path_call {
    ($name:ident($($arg:ident: $t:ty),*) writes -> $r:ty) => {
        #[link(name = "capi", kind = "static")]
        extern "C" {
            pub fn $name($($arg: $t,)*
                offsets: *mut f64, offsets_len: usize, numbers: *mut u32, numbers_len: usize,
                grades: *mut f64, grades_len: usize, curves: *mut f64, curves_len: usize,
                speeds: *mut f64, speeds_len: usize, powers: *mut f64, powers_len: usize,
                districts: *mut u32, districts_len: usize) -> $r;
        }
    };
    ($name:ident($($arg:ident: $t:ty),*) reads -> $r:ty) => {
        #[link(name = "capi", kind = "static")]
        extern "C" {
            pub fn $name($($arg: $t,)*
                offsets: *const f64, offsets_len: usize, numbers: *const u32, numbers_len: usize,
                grades: *const f64, grades_len: usize, curves: *const f64, curves_len: usize,
                speeds: *const f64, speeds_len: usize, powers: *const f64, powers_len: usize,
                districts: *const u32, districts_len: usize) -> $r;
        }
    };
    ($name:ident($($arg:ident: $t:ty),*) writes from table -> $r:ty) => {
        #[link(name = "capi", kind = "static")]
        extern "C" {
            pub fn $name($($arg: $t,)*
                offsets: *mut f64, offsets_len: usize, numbers: *mut u32, numbers_len: usize,
                grades: *mut f64, grades_len: usize, curves: *mut f64, curves_len: usize,
                speeds: *mut f64, speeds_len: usize, powers: *mut f64, powers_len: usize,
                districts: *mut u32, districts_len: usize,
                links: *const u32, links_len: usize, lengths: *const f64, lengths_len: usize,
                sets: *const u32, sets_len: usize, elevs: *const f64, elevs_len: usize,
                headings: *const f64, headings_len: usize, limits: *const f64, limits_len: usize,
                codes: *const u32, codes_len: usize, values: *const f64, values_len: usize,
                link_powers: *const f64, link_powers_len: usize, link_districts: *const u32, link_districts_len: usize) -> $r;
        }
    };
}

path_call!(mochaspit_new(train: Train) writes -> PathAnswer);
path_call!(mochaspit_finish(path: PathTpc) writes -> PathAnswer);
path_call!(mochaspit_clear(path: PathTpc, offset: f64) writes -> ClearAnswer);
path_call!(mochaspit_clear_each(path: PathTpc, xs: *const f64, xs_len: usize) writes -> ClearAnswer);
path_call!(mochaspit_reindex(path: PathTpc, new: *const u32, new_len: usize) writes -> PathAnswer);
path_call!(mochaspit_extend(path: PathTpc, train: Train, list: *const u32, list_len: usize) writes from table -> PathAnswer);
path_call!(mochaspit_recalc_speeds(path: PathTpc, train: Train) writes from table -> PathAnswer);
path_call!(mochaspit_link_grades(path: PathTpc, k: usize) reads -> RangeAnswer);
path_call!(mochaspit_link_curves(path: PathTpc, k: usize) reads -> RangeAnswer);
path_call!(mochaspit_posted_speed(path: PathTpc, offset: f64) reads -> PostedAnswer);
path_call!(mochaspit_set_link_and_offset(state: TrainState, path: PathTpc) reads -> StateAnswer);

#[link(name = "capi", kind = "static")]
extern "C" {
    pub fn mochaspit_calc_idx(col: *const f64, col_len: usize, n: usize, offset: f64, hint: usize, dir: u32) -> Searched;

    pub fn mochaspit_point_new(col: *const f64, col_len: usize, n: usize, state: TrainState) -> PointAnswer;
    pub fn mochaspit_point_calc_res(point: Point, col: *const f64, col_len: usize, n: usize, state: TrainState, dir: u32) -> PointRes;
    pub fn mochaspit_point_res_coeff_front(point: Point, col: *const f64, col_len: usize, n: usize) -> CoeffAnswer;
    pub fn mochaspit_point_res_net_front(point: Point, col: *const f64, col_len: usize, n: usize, state: TrainState) -> NetAnswer;
    pub fn mochaspit_point_path_tpc_idx_front(point: Point) -> usize;
    pub fn mochaspit_point_fix_cache(point: Point, sub: usize) -> PointAnswer;

    pub fn mochaspit_strap_new(col: *const f64, col_len: usize, n: usize, state: TrainState) -> StrapAnswer;
    pub fn mochaspit_strap_calc_res(strap: Strap, col: *const f64, col_len: usize, n: usize, state: TrainState, dir: u32) -> StrapRes;
    pub fn mochaspit_strap_walk(
        strap: Strap,
        col: *const f64,
        col_len: usize,
        n: usize,
        state: TrainState,
        dir: u32,
        step: f64,
        count: usize,
    ) -> StrapRes;
    pub fn mochaspit_strap_res_coeff_front(strap: Strap, col: *const f64, col_len: usize, n: usize) -> CoeffAnswer;
    pub fn mochaspit_strap_res_coeff_back(strap: Strap, col: *const f64, col_len: usize, n: usize) -> CoeffAnswer;
    pub fn mochaspit_strap_res_net_front(strap: Strap, col: *const f64, col_len: usize, n: usize, state: TrainState) -> NetAnswer;
    pub fn mochaspit_strap_res_net_back(strap: Strap, col: *const f64, col_len: usize, n: usize, state: TrainState) -> NetAnswer;
    pub fn mochaspit_strap_path_tpc_idx_front(strap: Strap) -> usize;
    pub fn mochaspit_strap_fix_cache(strap: Strap, sub: usize) -> StrapAnswer;
}
