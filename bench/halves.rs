//! Loops that only count, cut in two and the halves done at once, as `plan_batch` cuts a batch: how much several
//! workers can bring here. Each line has how long the work is, by how many workers, and the nanoseconds.
use std::hint::black_box;
use std::thread;
use std::time::Instant;

/// As many parts as a batch has lists.
const PARTS: usize = 256;

/// Goes over a table so often.
fn count(times: usize) -> u32 {
    let mut table: Vec<u32> = (0..4096u32).map(|number| number.wrapping_mul(2_654_435_761)).collect();
    let mut sum = 0u32;
    for time in 0..times as u32 {
        for number in &mut table {
            sum = sum.wrapping_add(*number ^ time);
            *number = sum;
        }
    }
    sum
}

fn count_parts(workers: usize, parts: usize, times: usize) {
    if workers < 2 {
        black_box(count(parts * times));
        return;
    }
    thread::scope(|scope| {
        scope.spawn(|| count_parts(workers - workers / 2, parts - parts / 2, times));
        count_parts(workers / 2, parts / 2, times);
    });
}

fn main() {
    for (what, times) in [("count-short", 40), ("count-long", 250)] {
        for workers in [1, 2, 4] {
            let since = Instant::now();
            count_parts(workers, PARTS, times);
            println!("{what} {workers} {}", since.elapsed().as_nanos());
        }
    }
}
