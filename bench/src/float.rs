//! Times the float functions, through the C interface, against those of std.

use crate::interface::{
    jengafir_abs, jengafir_ceil, jengafir_floor, jengafir_hypot,
    jengafir_mul_add, jengafir_rem_euclid_360, jengafir_round,
};
use crate::timing::compare;
use crate::unit_numbers;

const INPUTS: usize = 1 << 16;

/// A weight from -1 to 1 and two coordinates from -4096 to 4096, as those of drawings.
type Input = [f32; 3];

fn inputs() -> Vec<Input> {
    let mut unit = unit_numbers();
    (0..INPUTS).map(|_| [unit(), unit() * 4096.0, unit() * 4096.0]).collect()
}

fn line(name: &str, inputs: &[Input], ours: impl Fn(&Input) -> f32, std: impl Fn(&Input) -> f32) {
    compare(name, ("call", 1), inputs, |input| ours(input).to_bits(), |input| std(input).to_bits());
}

pub fn run() {
    let inputs = inputs();
    line("mul_add", &inputs, |&[a, b, c]| unsafe { jengafir_mul_add(a, b, c) }, |&[a, b, c]| a.mul_add(b, c));
    line("hypot", &inputs, |&[_, x, y]| unsafe { jengafir_hypot(x, y) }, |&[_, x, y]| x.hypot(y));
    line("floor", &inputs, |&[_, x, _]| unsafe { jengafir_floor(x) }, |&[_, x, _]| x.floor());
    line("ceil", &inputs, |&[_, x, _]| unsafe { jengafir_ceil(x) }, |&[_, x, _]| x.ceil());
    line("round", &inputs, |&[_, x, _]| unsafe { jengafir_round(x) }, |&[_, x, _]| x.round());
    line("abs", &inputs, |&[_, x, _]| unsafe { jengafir_abs(x) }, |&[_, x, _]| x.abs());
    let degrees = |&[_, x, _]: &Input| x.rem_euclid(360.0);
    line("rem_euclid_360", &inputs, |&[_, x, _]| unsafe { jengafir_rem_euclid_360(x) }, degrees);
}
