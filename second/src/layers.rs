//! Layers and steps: settings, step lists, digits, leftover and layer points (01, The lattice; Layers and steps).

use crate::lattice::{eight_numbers, is_point, nearest, within_limits, Point};
use crate::refusals::{demand, demand_none, Answer, Refusal};
use crate::refusals::{AT_INPUT, AT_OUTPUT, DIGIT, OVERLOAD, POINT, SETTINGS, SIZE, STEPS};

/// Settings as they are lent, allowed or not.
#[derive(Clone, Copy, Debug, PartialEq, Eq)]
pub struct Settings {
    /// The base of the digits.
    pub q: i32,
    /// The number M of layers.
    pub m: i32,
}

/// Settings that are allowed.
#[derive(Clone, Copy, Debug, PartialEq, Eq)]
pub struct Layout {
    /// The base of the digits.
    pub q: i64,
    /// The number M of layers.
    pub layers: usize,
}

impl Settings {
    /// The settings if q, M and q^M keep their limits, else 1.
    pub fn allowed(self) -> Answer<Layout> {
        let each = (2..=16).contains(&self.q) && (1..=4).contains(&self.m);
        demand(each && self.q.pow(self.m as u32) <= 4096, SETTINGS, 0)?;
        Ok(Layout { q: i64::from(self.q), layers: self.m as usize })
    }
}

impl Layout {
    /// The number of digits of a block, 8M.
    pub fn digits(self) -> usize {
        8 * self.layers
    }

    /// The number of bytes of a block, T and its digits.
    pub fn block_bytes(self) -> usize {
        self.digits() + 1
    }

    /// The weight q^m of a layer.
    pub fn weight(self, layer: usize) -> i64 {
        self.q.pow(layer as u32)
    }
}

/// The steps of a list that keeps its rule, else 2 at this list's place.
pub fn allowed_steps(steps: &[i32], list: u64) -> Answer<Vec<i64>> {
    let count = (1..=4).contains(&steps.len());
    let sizes = || steps.iter().all(|step| (1..=1024).contains(step));
    let increasing = || steps.windows(2).all(|pair| pair[0] < pair[1]);
    demand(count && sizes() && increasing(), STEPS, list)?;
    Ok(steps.iter().map(|&step| i64::from(step)).collect())
}

/// The doubled point of eight coefficients.
pub fn point_of_coefficients(c: &Point) -> Point {
    let [c1, c2, c3, c4, c5, c6, c7, c8] = *c;
    [
        4 * c1 - 2 * c2 + c8,
        2 * c2 - 2 * c3 + c8,
        2 * c3 - 2 * c4 + c8,
        2 * c4 - 2 * c5 + c8,
        2 * c5 - 2 * c6 + c8,
        2 * c6 - 2 * c7 + c8,
        2 * c7 + c8,
        c8,
    ]
}

/// The eight coefficients of a doubled point.
pub fn coefficients_of_point(e: &Point) -> Point {
    let sum_from = |k: usize| e[k - 1..7].iter().map(|number| number - e[7]).sum::<i64>();
    [
        sum_from(1) / 4,
        sum_from(2) / 2,
        sum_from(3) / 2,
        sum_from(4) / 2,
        sum_from(5) / 2,
        sum_from(6) / 2,
        sum_from(7) / 2,
        e[7],
    ]
}

/// The digits of a point, layer 0 first, and its leftover.
pub fn digits_and_leftover(layout: Layout, point: Point) -> (Vec<u8>, Point) {
    let mut digits = Vec::with_capacity(layout.digits());
    let mut g = point;
    for _ in 0..layout.layers {
        digits.extend(coefficients_of_point(&g).map(|c| c.rem_euclid(layout.q) as u8));
        g = nearest(&g, layout.q);
    }
    (digits, g)
}

/// The layer point of eight digits: their point less q times the nearest point to its q-th part.
pub fn layer_point(q: i64, digits: &[u8]) -> Point {
    let p = point_of_coefficients(&std::array::from_fn(|k| i64::from(digits[k])));
    let n = nearest(&p, q);
    std::array::from_fn(|i| p[i] - q * n[i])
}

/// The whole point of a digit list: the sum of q^m times its layer points.
pub fn whole_point(layout: Layout, digits: &[u8]) -> Point {
    let mut whole = [0; 8];
    for (m, layer) in digits.chunks(8).enumerate() {
        let point = layer_point(layout.q, layer);
        whole = std::array::from_fn(|i| whole[i] + layout.weight(m) * point[i]);
    }
    whole
}

/// A block with the first step that fits it.
pub struct Fitted {
    /// The place T of the step on its list.
    pub t: usize,
    /// The block's digits, layer 0 first.
    pub digits: Vec<u8>,
}

/// The first step on the list without overload for the eight X of a block, or 6 at the block's index.
pub fn first_fitting_step(layout: Layout, steps: &[i64], x: &[i64], block: u64) -> Answer<Fitted> {
    let doubled: Point = std::array::from_fn(|i| 2 * x[i]);
    let fitted = steps.iter().enumerate().find_map(|(t, &s)| {
        let (digits, leftover) = digits_and_leftover(layout, nearest(&doubled, s));
        (leftover == [0; 8]).then_some(Fitted { t, digits })
    });
    fitted.ok_or(Refusal { number: OVERLOAD, place: block })
}

/// The point coder: a lent point's digits are written to lent room, its leftover is answered.
pub fn digits_of_point(settings: Settings, point: &[i32], room: &mut [u8]) -> Answer<Point> {
    let layout = settings.allowed()?;
    let point = eight_numbers(point)?;
    demand(room.len() >= layout.digits(), SIZE, AT_OUTPUT)?;
    demand(is_point(&point) && within_limits(&point), POINT, 0)?;
    let (digits, leftover) = digits_and_leftover(layout, point);
    room[..digits.len()].copy_from_slice(&digits);
    Ok(leftover)
}

/// The point decoder: the whole point of a lent digit list.
pub fn point_of_digits(settings: Settings, digits: &[u8]) -> Answer<Point> {
    let layout = settings.allowed()?;
    demand(digits.len() == layout.digits(), SIZE, AT_INPUT)?;
    demand_none(digits.iter().position(|&digit| i64::from(digit) >= layout.q), DIGIT)?;
    Ok(whole_point(layout, digits))
}
