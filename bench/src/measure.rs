//! Interleaved timing of both markers on one paper.

use crate::papers::Case;
use differential::marker::{Answer, EXAM};
use differential::{library, marker};
use std::cell::RefCell;
use std::ffi::c_int;
use std::fmt;
use std::hint::black_box;

/// Which call is timed.
#[derive(Clone, Copy, PartialEq, Eq)]
pub enum Call {
    Certificate,
    Run,
    JointList,
    /// Into a buffer of 32,768 bytes.
    FairCopy,
    /// Into a buffer of one byte less than the model has.
    ShortCopy,
    /// The sister of show row, for hypothesis 0 of this obligation.
    ShowRow(u32),
}

impl fmt::Display for Call {
    fn fmt(&self, f: &mut fmt::Formatter) -> fmt::Result {
        match self {
            Call::Certificate => write!(f, "certificate"),
            Call::Run => write!(f, "run"),
            Call::JointList => write!(f, "joint list"),
            Call::FairCopy => write!(f, "fair copy"),
            Call::ShortCopy => write!(f, "fair copy, refused"),
            Call::ShowRow(obligation) => write!(f, "show row of obligation {obligation}"),
        }
    }
}

/// Median seconds of processor time for one call.
#[derive(Clone, Copy)]
pub struct Figures {
    pub library: f64,
    pub rust: f64,
}

impl Figures {
    pub fn ratio(&self) -> f64 {
        self.library / self.rust
    }
}

/// The shortest time of one sample, in seconds.
const SAMPLE: f64 = 0.001;

pub fn measure(case: &Case, samples: usize) -> Figures {
    let (by_library, by_rust) = calls(case.call);
    let answer = by_library(&case.model, &case.second);
    assert_eq!(answer, by_rust(&case.model, &case.second), "{}", case.name);
    assert_eq!(answer.number, case.number, "{}", case.name);

    let slower = seconds(&by_library, case, 1).max(seconds(&by_rust, case, 1)).max(1e-9);
    let times = (SAMPLE / slower).ceil() as usize;
    let (mut library, mut rust) = (vec![], vec![]);
    for sample in 0..samples {
        if sample % 2 == 0 {
            library.push(seconds(&by_library, case, times));
            rust.push(seconds(&by_rust, case, times));
        } else {
            rust.push(seconds(&by_rust, case, times));
            library.push(seconds(&by_library, case, times));
        }
    }
    Figures { library: median(library), rust: median(rust) }
}

pub type Mark = Box<dyn Fn(&[u8], &[u8]) -> Answer>;

/// The library's call and the independent marker's, at the exam desk.
pub fn calls(call: Call) -> (Mark, Mark) {
    match call {
        Call::Certificate => (
            Box::new(|model, second| library::mark_certificate(model, second, EXAM)),
            Box::new(|model, second| marker::mark_certificate(model, second, EXAM)),
        ),
        Call::Run => (
            Box::new(|model, second| library::mark_run(model, second, EXAM)),
            Box::new(|model, second| marker::mark_run(model, second, EXAM)),
        ),
        Call::JointList => {
            let table = || RefCell::new(vec![marker::JointSwitch::default(); 4_096]);
            let (by_library, by_rust) = (table(), table());
            (
                Box::new(move |model, _| library::joint_list(model, &mut by_library.borrow_mut(), EXAM)),
                Box::new(move |model, _| marker::joint_list(model, &mut by_rust.borrow_mut(), EXAM)),
            )
        }
        Call::FairCopy => copying(|model, buffer| buffer.resize(32_768.max(model.len()), 0)),
        Call::ShortCopy => copying(|model, buffer| buffer.resize(model.len() - 1, 0)),
        Call::ShowRow(obligation) => (
            Box::new(move |model, second| library::show_row(model, second, obligation, 0, EXAM)),
            Box::new(move |model, second| marker::show_row(model, second, obligation, 0, EXAM).0),
        ),
    }
}

/// Fair copies into a buffer that is sized first, which costs nothing once it has that size.
fn copying(sized: fn(&[u8], &mut Vec<u8>)) -> (Mark, Mark) {
    let by = |call: fn(&[u8], &mut [u8], marker::Limits) -> Answer| -> Mark {
        let buffer = RefCell::new(vec![]);
        Box::new(move |model, _| {
            let buffer = &mut buffer.borrow_mut();
            sized(model, buffer);
            call(model, buffer, EXAM)
        })
    };
    (by(library::fair_copy), by(marker::fair_copy))
}

/// The mean processor time of one call over this many.
fn seconds(mark: &Mark, case: &Case, times: usize) -> f64 {
    let start = processor_time();
    for _ in 0..times {
        black_box(mark(black_box(&case.model), black_box(&case.second)));
    }
    (processor_time() - start) / times as f64
}

/// Seconds that this thread has run, so that other programs on the machine count less.
fn processor_time() -> f64 {
    #[repr(C)]
    struct Time {
        seconds: i64,
        nanoseconds: i64,
    }
    /// CLOCK_THREAD_CPUTIME_ID on Linux.
    const THREAD: c_int = 3;
    unsafe extern "C" {
        fn clock_gettime(clock: c_int, time: *mut Time) -> c_int;
    }
    let mut time = Time { seconds: 0, nanoseconds: 0 };
    // Safety: the struct has the layout of C's timespec on 64-bit Linux.
    let failed = unsafe { clock_gettime(THREAD, &mut time) };
    assert!(failed == 0, "no clock");
    time.seconds as f64 + time.nanoseconds as f64 * 1e-9
}

fn median(mut list: Vec<f64>) -> f64 {
    list.sort_by(f64::total_cmp);
    list[list.len() / 2]
}
