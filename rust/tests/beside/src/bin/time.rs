//! `time FILE`: how long the erased codec takes for the messages of a file, over the proved library, in one run.

use beside::{Erased, LIBRARY, messages};
use conjareho::tc::{TcActionMessage, TcMessage};
use std::hint::black_box;
use std::time::Instant;

const OPERATIONS: [&str; 2] = ["check", "rewrite"];
const PASSES: usize = 40;

/// The least nanoseconds that a call takes.
fn least(least: &mut f64, times: usize, mut call: impl FnMut() -> u32) {
    let start = Instant::now();
    for _ in 0..times {
        assert_eq!(black_box(call()), 0);
    }
    let took = start.elapsed().as_nanos() as f64 / times as f64;
    *least = least.min(took);
}

/// One sample of each operation of both: the erased codec first.
fn sample<M: Erased>(form: usize, bytes: &[u8], buffer: &mut [u8], took: &mut [[f64; 2]; 2]) {
    let library = &LIBRARY[form];
    let times = 1 + 40_000 / (bytes.len() + 100);
    least(&mut took[0][0], times, || M::timed_check(black_box(bytes)));
    least(&mut took[0][1], times, || library.check(black_box(bytes)));
    least(&mut took[1][0], times, || M::timed_rewrite(black_box(bytes), buffer));
    least(&mut took[1][1], times, || library.rewrite(black_box(bytes), buffer));
}

fn main() {
    let all = messages(&std::env::args().nth(1).expect("a file"));
    let mut logs = [0.0; 2];
    println!("| message | {} |", OPERATIONS.join(" | "));
    println!("|---|{}", "---:|".repeat(2));
    for (form, bytes) in &all {
        let mut took = [[f64::MAX; 2]; 2];
        let mut buffer = vec![0; 2 * bytes.len() + 4096];
        for _ in 0..PASSES {
            match form {
                0 => sample::<TcMessage>(*form, bytes, &mut buffer, &mut took),
                _ => sample::<TcActionMessage>(*form, bytes, &mut buffer, &mut took),
            }
        }
        let row = took.map(|[erased, proved]| format!("{erased:.1} / {proved:.1} = {:.2}", erased / proved));
        println!("| {} of {} bytes | {} |", ["tc", "action"][*form], bytes.len(), row.join(" | "));
        for (log, [erased, proved]) in logs.iter_mut().zip(took) {
            *log += (erased / proved).ln() / all.len() as f64;
        }
    }
    let means = logs.map(|log| format!("{:.2}", log.exp()));
    println!("| geometric mean | {} |", means.join(" | "));
}
