//! A flight on threads in plain Rust, with the hand-overs of a flight on words: a yardstick, of which nothing is proved.
//!
//!     plain_flight FRAMES PROCESSORS [NAME=NUMBER]..
//!     plain_flight costs
//!
//! A thread flies each processor and the main thread the kernel. In a frame a processor waits for its release, reads the
//! twenty words of the kernel and the image of each processor as the frame began, stores the 24 words of its own image,
//! its mark and its end word, and wakes the kernel. The kernel waits for each processor, reads the image that its mark
//! names, stores its twenty words and the release of the next frame, and wakes the processors. Who waits looks so many
//! turns whether it may go on, and then parks. The words stored mix what was read, so that none is left out; no law of an
//! application is computed. What it prints is the time in seconds, and a sum that shows what was read.
//!
//! | Name | Number | Where it is not said |
//! |---|---|---|
//! | `turns` | how often a wait looks before it parks | 10,000 as on words, none on one processor |
//! | `line` | on how many bytes of their own the words of different writers stand, 8 for none | 64 |
//! | `halt` | the frame in which the first processor halts for good, before its mark | in none |
//! | `work` | nanoseconds of computation that each actor adds to a frame | 0 |
//! | `seqcst` | 1 for loads and stores that are sequentially consistent, as those on words are; else acquire and release | 0 |
//! | `threads` | 0 to fly all actors in turn on the main thread | 1 |
//!
//! `costs` prints what a load and a store of a word cost on one thread, a turn of a wait, and a wake where nobody waits, in
//! nanoseconds, best of a hundred trials.

use std::env;
use std::hint::black_box;
use std::process::ExitCode;
use std::sync::Condvar;
use std::sync::atomic::{AtomicU64, Ordering};
use std::thread::{self, Thread};
use std::time::Instant;

/// Words of an image: eight for each of three applications.
const WIDTH: usize = 24;
const KERNEL_WORDS: usize = 20;
const ALL_LINE: usize = 128;

/// What was asked for.
#[derive(Clone, Copy)]
struct Flight {
    frames: u64,
    processors: usize,
    turns: u64,
    line: usize,
    halt: u64,
    work: u64,
}

#[repr(align(128))]
struct Block([AtomicU64; ALL_LINE / 8]);

/// The shared words, each written by one actor: the release and the kernel's words, and of each processor the mark, the
/// end word and two banks.
struct Words<const SEQCST: bool> {
    blocks: Vec<Block>,
    kernel: usize,
    processors: usize,
    apart: usize,
    bank: usize,
}

impl<const SEQCST: bool> Words<SEQCST> {
    const LOAD: Ordering = if SEQCST {
        Ordering::SeqCst
    } else {
        Ordering::Acquire
    };
    const STORE: Ordering = if SEQCST {
        Ordering::SeqCst
    } else {
        Ordering::Release
    };

    fn new(flight: &Flight) -> Self {
        let own = |words: usize| words.next_multiple_of(flight.line / 8);
        let (kernel, bank) = (own(1), own(WIDTH));
        let processors = kernel + own(KERNEL_WORDS);
        let apart = own(2) + 2 * bank;
        let count = processors + flight.processors * apart;
        let blocks = (0..count.div_ceil(ALL_LINE / 8))
            .map(|_| Block(Default::default()))
            .collect();
        let words = Words {
            blocks,
            kernel,
            processors,
            apart,
            bank,
        };
        words.word(0).store(1, Self::STORE);
        words
    }

    fn word(&self, at: usize) -> &AtomicU64 {
        &self.blocks[at / (ALL_LINE / 8)].0[at % (ALL_LINE / 8)]
    }

    fn load(&self, at: usize) -> u64 {
        self.word(at).load(Self::LOAD)
    }

    fn store(&self, at: usize, word: u64) {
        self.word(at).store(word, Self::STORE);
    }

    fn mark(&self, p: usize) -> usize {
        self.processors + p * self.apart
    }

    fn end(&self, p: usize) -> usize {
        self.mark(p) + 1
    }

    fn bank(&self, p: usize, bank: u64) -> usize {
        self.mark(p) + self.apart - 2 * self.bank + bank as usize * self.bank
    }

    fn sum(&self, at: usize, count: usize, sum: u64) -> u64 {
        (at..at + count).fold(sum, |sum, at| mix(sum, self.load(at)))
    }

    /// The image of a processor as a frame begins: the marked bank, or the other one where the mark is of this frame.
    #[inline(never)]
    fn look(&self, p: usize, frame: u64, sum: u64) -> u64 {
        let mark = self.load(self.mark(p));
        let bank = if mark / 2 <= frame {
            mark % 2
        } else {
            1 - mark % 2
        };
        self.sum(self.bank(p, bank), WIDTH, sum)
    }

    /// Stores an image in the bank that the mark does not name, and the mark that names it.
    #[inline(never)]
    fn commit(&self, p: usize, frame: u64, sum: u64) {
        let bank = 1 - self.load(self.mark(p)) % 2;
        for (i, at) in (self.bank(p, bank)..).take(WIDTH).enumerate() {
            self.store(at, sum ^ i as u64);
        }
        self.store(self.mark(p), 2 * (frame + 1) + bank);
    }

    /// The frame of a processor that is released, up to its end word: whether it goes on.
    fn fly(&self, flight: &Flight, p: usize, frame: u64) -> bool {
        let mut sum = self.sum(self.kernel, KERNEL_WORDS, p as u64);
        for q in 0..flight.processors {
            sum = self.look(q, frame, sum);
        }
        spend(flight.work);
        let halts = p == 0 && frame == flight.halt;
        if !halts {
            self.commit(p, frame, sum);
        }
        self.store(self.end(p), 2 * frame + if halts { 1 } else { 2 });
        !halts
    }

    fn is_released(&self, frame: u64) -> bool {
        self.load(0) > frame
    }

    fn may_note(&self, p: usize, frame: u64) -> bool {
        let end = self.load(self.end(p));
        end % 2 == 1 || end >= 2 * (frame + 1)
    }

    /// What a processor has committed by the end of a frame.
    fn note(&self, p: usize, sum: u64) -> u64 {
        let mark = self.load(self.mark(p));
        self.sum(self.bank(p, mark % 2), WIDTH, mix(sum, mark))
    }

    /// Says what the frame after this one is, and releases it.
    fn release(&self, flight: &Flight, frame: u64, sum: u64) {
        spend(flight.work);
        if frame + 1 < flight.frames {
            for i in 0..KERNEL_WORDS {
                self.store(self.kernel + i, sum ^ i as u64);
            }
            self.store(0, frame + 2);
        }
    }

    /// Flies all actors in turn.
    fn fly_in_turn(&self, flight: &Flight) -> u64 {
        let (mut sum, mut lives) = (0, vec![true; flight.processors]);
        for frame in 0..flight.frames {
            for (p, lives) in lives.iter_mut().enumerate() {
                *lives = *lives && self.fly(flight, p, frame);
            }
            for p in 0..flight.processors {
                sum = self.note(p, sum);
            }
            self.release(flight, frame, sum);
        }
        sum
    }

    fn fly_processor(&self, flight: &Flight, p: usize, kernel: &Thread) {
        for frame in 0..flight.frames {
            wait(flight.turns, || self.is_released(frame));
            let goes_on = self.fly(flight, p, frame);
            kernel.unpark();
            if !goes_on {
                return;
            }
        }
    }

    fn fly_kernel(&self, flight: &Flight, processors: &[Thread]) -> u64 {
        let mut sum = 0;
        for frame in 0..flight.frames {
            for p in 0..flight.processors {
                wait(flight.turns, || self.may_note(p, frame));
                sum = self.note(p, sum);
            }
            self.release(flight, frame, sum);
            processors.iter().for_each(Thread::unpark);
        }
        sum
    }

    fn fly_on_threads(&self, flight: &Flight) -> u64 {
        let kernel = &thread::current();
        thread::scope(|scope| {
            let start = |p| {
                scope
                    .spawn(move || self.fly_processor(flight, p, kernel))
                    .thread()
                    .clone()
            };
            let processors: Vec<Thread> = (0..flight.processors).map(start).collect();
            self.fly_kernel(flight, &processors)
        })
    }
}

fn mix(sum: u64, word: u64) -> u64 {
    sum.rotate_left(5) ^ word
}

/// Looks for this number of turns, without a hint to the processor, as a rest on words does; then parks.
fn wait(turns: u64, may_go_on: impl Fn() -> bool) {
    if !spin(turns, &may_go_on) {
        while !may_go_on() {
            thread::park();
        }
    }
}

fn spin(turns: u64, may_go_on: impl Fn() -> bool) -> bool {
    (0..turns).any(|_| may_go_on())
}

/// So many steps of a computation of which each needs the one before.
fn spend(steps: u64) {
    let mut x = black_box(1u64);
    for _ in 0..steps {
        x = black_box(x.wrapping_mul(6_364_136_223_846_793_005).wrapping_add(1));
    }
    black_box(x);
}

/// How many such steps take so many nanoseconds, in the best of a few trials.
fn steps_of(nanoseconds: u64) -> u64 {
    const STEPS: u64 = 100_000;
    if nanoseconds == 0 {
        return 0;
    }
    let trial = || {
        let begin = Instant::now();
        spend(STEPS);
        begin.elapsed().as_nanos() as u64
    };
    let best = (0..20).map(|_| trial()).min().unwrap_or(1).max(1);
    nanoseconds * STEPS / best
}

/// The nanoseconds of a step, in the best of a hundred trials of a thousand.
fn cost_of(step: impl Fn()) -> f64 {
    let trial = || {
        let begin = Instant::now();
        (0..1_000).for_each(|_| step());
        begin.elapsed().as_nanos() as f64 / 1_000.0
    };
    (0..100).map(|_| trial()).fold(f64::INFINITY, f64::min)
}

fn print_costs() {
    let words: Vec<AtomicU64> = (0..WIDTH as u64).map(AtomicU64::new).collect();
    let each = |step: &dyn Fn(&AtomicU64)| {
        cost_of(|| black_box(&words).iter().for_each(step)) / WIDTH as f64
    };
    let (condvar, own) = (Condvar::new(), thread::current());
    for (what, cost) in [
        (
            "a load that acquires",
            each(&|word| _ = black_box(word.load(Ordering::Acquire))),
        ),
        (
            "a load that is sequentially consistent",
            each(&|word| _ = black_box(word.load(Ordering::SeqCst))),
        ),
        (
            "a store that releases",
            each(&|word| word.store(1, Ordering::Release)),
        ),
        (
            "a store that is sequentially consistent",
            each(&|word| word.store(1, Ordering::SeqCst)),
        ),
        (
            "a turn of a wait",
            cost_of(|| _ = black_box(spin(1_000, || words[0].load(Ordering::SeqCst) > 1)))
                / 1_000.0,
        ),
        (
            "a wake of a thread that does not park",
            cost_of(|| own.unpark()),
        ),
        (
            "a wake by a call of the system where nobody waits",
            cost_of(|| condvar.notify_one()),
        ),
    ] {
        println!("{cost:.2} ns {what}");
    }
}

fn fly<const SEQCST: bool>(flight: &Flight, on_threads: bool) -> u64 {
    let words = Words::<SEQCST>::new(flight);
    if on_threads {
        words.fly_on_threads(flight)
    } else {
        words.fly_in_turn(flight)
    }
}

fn named(words: &[String], name: &str, otherwise: u64) -> Option<u64> {
    let mut found = words
        .iter()
        .filter_map(|word| word.strip_prefix(name)?.strip_prefix('='));
    found
        .next()
        .map_or(Some(otherwise), |number| number.parse().ok())
}

fn flight_of(words: &[String]) -> Option<Flight> {
    let line = named(words, "line", 64)? as usize;
    let is_alone = thread::available_parallelism().is_ok_and(|count| count.get() == 1);
    let flight = Flight {
        frames: words.first()?.parse().ok()?,
        processors: words.get(1)?.parse().ok()?,
        turns: named(words, "turns", if is_alone { 0 } else { 10_000 })?,
        line,
        halt: named(words, "halt", u64::MAX)?,
        work: steps_of(named(words, "work", 0)?),
    };
    [8, 64, 128].contains(&line).then_some(flight)
}

fn main() -> ExitCode {
    let words: Vec<String> = env::args().skip(1).collect();
    if words == ["costs"] {
        print_costs();
        return ExitCode::SUCCESS;
    }
    let choices = || {
        Some((
            flight_of(&words)?,
            named(&words, "seqcst", 0)? == 1,
            named(&words, "threads", 1)? == 1,
        ))
    };
    let Some((flight, seqcst, on_threads)) = choices() else {
        eprintln!("plain_flight FRAMES PROCESSORS [NAME=NUMBER]..");
        return ExitCode::from(2);
    };
    let begin = Instant::now();
    let sum = if seqcst {
        fly::<true>(&flight, on_threads)
    } else {
        fly::<false>(&flight, on_threads)
    };
    println!("{:.6} {sum:016x}", begin.elapsed().as_secs_f64());
    ExitCode::SUCCESS
}
