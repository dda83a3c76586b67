//! One change each to a model case, made for one test to give its answer. Several changes show the order of tests.

mod level;
mod limits;
mod product;
mod rows;
mod setting;
mod step_one;
mod units;

use super::case::{Case, Numbers};
use crate::random::Random;

pub type Breaker = fn(&mut Case, &mut Random);

/// How many of them, the first, are for step 1.
pub const STEP_ONE: usize = 4;

pub const BREAKERS: [Breaker; 40] = [
    step_one::entry_out_of_range,
    step_one::table_not_whole,
    step_one::table_out_of_range,
    step_one::low_above_high,
    units::base_unit_absent,
    units::base_unit_several,
    units::entered_unit_absent,
    units::entered_unit_several,
    units::amount_zero,
    units::amount_above,
    product::no_gpk,
    product::gpk_absent,
    product::gpk_several,
    product::age_missing,
    product::sex_missing,
    product::sex_differs,
    level::hpk_missing,
    level::hpk_several,
    level::prk_missing,
    level::prk_several,
    level::base_level_absent,
    level::base_level_several,
    setting::setting_absent,
    setting::setting_several,
    rows::age_no_row,
    rows::only_count_differs,
    rows::only_unit_differs,
    rows::both_differ,
    rows::weight_missing,
    rows::weight_no_row,
    rows::surface_missing,
    rows::surface_no_row,
    rows::rows_several,
    rows::equal_rows,
    limits::limits_absent,
    limits::limits_several,
    limits::equal_limits,
    units::equal_unit_rows,
    setting::route_absent,
    step_one::table_empty,
];

fn first(case: &mut Case) -> &mut Numbers {
    &mut case.entries[0]
}
