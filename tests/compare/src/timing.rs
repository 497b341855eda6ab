//! Times of two calls, taken in turn on one thread.

const ROUNDS: usize = 9;

pub fn title() {
    let [this, other, ratio, lowest, highest] = ["this", "other", "ratio", "lowest", "highest"];
    println!(
        "{:<44} {this:>10} {other:>10} {ratio:>7} {lowest:>7} {highest:>7}",
        ""
    );
}

/// Runs the two in turn and prints their median milliseconds, and of their ratios the median, the
/// lowest and the highest.
pub fn race(name: &str, mut this: impl FnMut(), mut other: impl FnMut()) {
    let (mut these, mut others, mut ratios) = (Vec::new(), Vec::new(), Vec::new());
    this();
    other();
    for _ in 0..ROUNDS {
        let (a, b) = (spent(&mut this), spent(&mut other));
        these.push(a);
        others.push(b);
        ratios.push(a / b);
    }
    let [(_, a, _), (_, b, _), (low, ratio, high)] = [these, others, ratios].map(spread);
    println!("{name:<44} {a:>7.1} ms {b:>7.1} ms {ratio:>7.3} {low:>7.3} {high:>7.3}");
}

/// The lowest, the median and the highest.
fn spread(mut numbers: Vec<f64>) -> (f64, f64, f64) {
    numbers.sort_by(f64::total_cmp);
    let last = numbers.len() - 1;
    (numbers[0], numbers[last / 2], numbers[last])
}

/// The milliseconds of CPU time that this thread spends on a call.
pub fn spent(call: &mut impl FnMut()) -> f64 {
    let before = thread_time();
    call();
    thread_time() - before
}

#[repr(C)]
struct Timespec {
    seconds: i64,
    nanoseconds: i64,
}

const CLOCK_THREAD_CPUTIME_ID: i32 = 3;

extern "C" {
    fn clock_gettime(clock: i32, time: *mut Timespec) -> i32;
}

fn thread_time() -> f64 {
    let mut time = Timespec {
        seconds: 0,
        nanoseconds: 0,
    };
    // SAFETY: `time` is what the call fills on 64-bit Linux.
    let status = unsafe { clock_gettime(CLOCK_THREAD_CPUTIME_ID, &mut time) };
    assert_eq!(status, 0, "no thread CPU time");
    time.seconds as f64 * 1e3 + time.nanoseconds as f64 / 1e6
}
