//! Every number function of the port beside Rust's own or, where document 01 replaces that, beside
//! `replaced`.

use super::{inputs, ours, rows};
use crate::compare::{compare, Effort};
use sonalign::replaced;

pub fn check(effort: Effort) -> bool {
    let results = [
        finite(effort),
        whole(effort),
        narrow_and_root(effort),
        powers(effort),
        logarithms(effort),
        rows::check(effort),
    ];
    results.into_iter().all(|same| same)
}

fn finite(effort: Effort) -> bool {
    let any = inputs::any(effort);
    let any_f32 = inputs::any_f32(effort);
    let is_finite_f32 = ours::is_finite_f32;
    compare("is_finite", ours::is_finite, f64::is_finite, &any, effort)
        & compare(
            "is_finite_f32",
            is_finite_f32,
            f32::is_finite,
            &any_f32,
            effort,
        )
        & compare("widen", ours::widen, f64::from, &any_f32, effort)
}

fn whole(effort: Effort) -> bool {
    let inputs = inputs::whole(effort);
    compare("round", ours::round, f64::round, &inputs, effort)
        & compare("floor", ours::floor, f64::floor, &inputs, effort)
        & compare("ceil", ours::ceil, f64::ceil, &inputs, effort)
}

fn narrow_and_root(effort: Effort) -> bool {
    let (narrow, root) = (inputs::narrow(effort), inputs::root(effort));
    let in_row = rows::narrow_in_row;
    compare("narrow", ours::narrow, |x| x as f32, &narrow, effort)
        & compare("narrow in a row", in_row, |x| x as f32, &narrow, effort)
        & compare("root", ours::root, f64::sqrt, &root, effort)
        & compare("root in a row", rows::root_in_row, f64::sqrt, &root, effort)
}

fn powers(effort: Effort) -> bool {
    let (exp, ten_to) = (inputs::exp(effort), inputs::ten_to(effort));
    compare("exp", ours::exp, replaced::exp, &exp, effort)
        & compare("ten_to", ours::ten_to, replaced::ten_to, &ten_to, effort)
}

fn logarithms(effort: Effort) -> bool {
    let (ln, ln_1p) = (inputs::ln(effort), inputs::ln_1p(effort));
    let rows = inputs::ln_1p_rows(effort, rows::ROW);
    compare("ln", ours::ln, replaced::ln, &ln, effort)
        & compare("log10", ours::log10, replaced::log10, &ln, effort)
        & compare("ln_1p", ours::ln_1p, replaced::ln_1p, &ln_1p, effort)
        & compare("rows of ln_1p", rows::logs_from, |_| true, &rows, effort)
}
