//! Rows of two polygons (`pair`): clash rules either way round, and cover.
use super::json::Object;
use crate::clash::{clash, rule_a, rule_b, rule_c};
use crate::cover::polygon_covers;
use crate::gen::pairs::any_pair;
use crate::gen::rng::Rng;
use crate::polygon::Point;

pub fn pair_row(r: &mut Rng) -> Object {
    let (f, g) = any_pair(r);
    let points = |polygon: &[[i64; 3]]| -> Vec<Point> { polygon.iter().map(|p| p.map(i128::from)).collect() };
    let (pf, pg) = (points(&f), points(&g));
    Object::of_kind("pair")
        .put("f", &f)
        .put("g", &g)
        .put("a", &[rule_a(&pf, &pg), rule_a(&pg, &pf)])
        .put("b", &[rule_b(&pf, &pg), rule_b(&pg, &pf)])
        .put("c", &[rule_c(&pf, &pg), rule_c(&pg, &pf)])
        .put("clash", &clash(&pf, &pg).is_some())
        .put("covers", &polygon_covers(&pf, &pg))
}
