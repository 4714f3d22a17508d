//! Times every function of the C interface, called through it, against Rust's.

#[cfg(drawing)]
mod draw;
mod float;
#[allow(dead_code)]
#[path = "../../oracle/src/interface.rs"]
mod interface;
#[cfg(drawing)]
mod item;
#[cfg(drawing)]
mod length;
#[cfg(drawing)]
mod merge;
#[cfg(drawing)]
mod need;
#[cfg(drawing)]
mod repeater;
mod timing;
#[cfg(drawing)]
mod trim;

/// Pseudorandom numbers from -1 to 1.
fn unit_numbers() -> impl FnMut() -> f32 {
    let mut state: u64 = 0x2545f4914f6cdd1d;
    move || {
        state ^= state << 13;
        state ^= state >> 7;
        state ^= state << 17;
        (state >> 40) as f32 / (1 << 23) as f32 - 1.0
    }
}

fn main() {
    float::run();
    #[cfg(drawing)]
    {
        draw::run();
        need::run_paths();
        item::run();
        need::run_items();
        merge::run();
        need::run_merges();
        length::run();
        trim::run();
        repeater::run();
    }
}
