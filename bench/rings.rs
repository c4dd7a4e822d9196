//! The rings that two threads share, in plain Rust: the same words, the same slots and the same orderings as those of
//! `crates/motion_ring`, `serial_ring`, `realtime_flags` and `rtrb`, to measure the proved ones beside them.
//!
//! Its words are what goes through (pieces, bytes, loaded, flags, records, polled, events, busy, moves or lines), how the two sides
//! lie (apart or beside), and how many times. It writes how many came. `loaded` is bytes where each side loads the other's count
//! in each call, and not only where its last load leaves no room, or no byte. `polled` is records where a side that finds
//! nothing polls again at once.
//!
//! `events` and `lines` are what threads could do at most: all that the program's threads share, and its waiting, with no work
//! between. `events` go in pieces of 20 from a board through a pulse, which records each and counts it, to a recorder, which
//! writes them; `busy` are the same, where pulse and recorder have about as many instructions an event as the program's have.
//! `lines` of seven bytes, as those of the job of still lines, go to a board, which takes both words of flags after
//! each and answers it, from a host that counts characters; `moves` are lines of eight bytes, as those of the job of short moves,
//! of which no piece is made.
use std::cell::UnsafeCell;
use std::io::Write;
use std::mem::MaybeUninit;
use std::sync::atomic::{AtomicU64, Ordering::SeqCst};
use std::{env, process, thread};

/// What one side has for itself and writes, at 256 bytes from what the other has.
#[repr(align(256))]
struct Apart<T>(T);

/// The same, with the other's right behind it.
struct Beside<T>(T);

trait Place<T>: Sync + Send {
    fn of(value: T) -> Self;
    fn get(&self) -> &T;
    fn get_mut(&mut self) -> &mut T;
}

macro_rules! place {
    ($name:ident) => {
        impl<T: Sync + Send> Place<T> for $name<T> {
            fn of(value: T) -> Self {
                $name(value)
            }
            fn get(&self) -> &T {
                &self.0
            }
            fn get_mut(&mut self) -> &mut T {
                &mut self.0
            }
        }
    };
}
place!(Apart);
place!(Beside);

/// Slots that one side fills and the other empties, as the words say.
struct Slots<T, const N: usize>([UnsafeCell<MaybeUninit<T>>; N]);

unsafe impl<T: Send, const N: usize> Sync for Slots<T, N> {}

impl<T: Copy, const N: usize> Slots<T, N> {
    fn new() -> Self {
        Slots([const { UnsafeCell::new(MaybeUninit::uninit()) }; N])
    }
    fn put(&self, slot: usize, value: T) {
        unsafe { (*self.0[slot].get()).write(value) };
    }
    fn take(&self, slot: usize) -> T {
        unsafe { (*self.0[slot].get()).assume_init_read() }
    }
}

/// The next place of a ring of so many.
fn place_behind(place: usize, size: usize) -> usize {
    if place + 1 == size { 0 } else { place + 1 }
}

/// Lets others run after so many polls that found nothing.
struct Polls(u32);

impl Polls {
    fn poll(&mut self) {
        if self.0 % 1024 == 0 {
            thread::yield_now();
        }
        self.0 = self.0.wrapping_add(1);
    }
}

/// Lets others run for a while, so that some hundred records come meanwhile.
fn rest() {
    for _ in 0..4 {
        thread::yield_now();
    }
}

/// What a side keeps for itself: its own count, the other's as it was loaded last, and a place.
#[derive(Default)]
struct Own {
    count: u64,
    known: u64,
    place: usize,
    ticks: u64,
    before: [u64; 4],
}

/// Two counts that the sides write, and what each keeps for itself.
struct Sides<P, Q> {
    left_word: P,
    right_word: P,
    left: Q,
    right: Q,
}

impl<P: Place<AtomicU64>, Q: Place<Own>> Sides<P, Q> {
    fn new() -> Self {
        Sides {
            left_word: P::of(AtomicU64::new(0)),
            right_word: P::of(AtomicU64::new(0)),
            left: Q::of(Own::default()),
            right: Q::of(Own::default()),
        }
    }
}

/// Runs both sides in threads of their own.
fn both<A: Send, B: Send>(left: impl FnOnce() -> A + Send, right: impl FnOnce() -> B + Send) -> B {
    thread::scope(|scope| {
        let other = scope.spawn(right);
        left();
        other.join().unwrap()
    })
}

#[derive(Clone, Copy)]
#[allow(dead_code)]
struct Move {
    from: [i32; 3],
    to: [i32; 3],
}

#[derive(Clone, Copy)]
#[allow(dead_code)]
enum Piece {
    Segment { line: u32, mv: Move, first: u32, n: u32, w_in: u64, w_out: u64, cycles: u64 },
    Mark(u64),
    End,
}

fn tick_count(piece: &Piece) -> u64 {
    match piece {
        Piece::Segment { n, .. } => *n as u64,
        Piece::Mark(_) => 1,
        Piece::End => 0,
    }
}

const TWENTY: Piece = Piece::Segment {
    line: 1,
    mv: Move { from: [0; 3], to: [20, 0, 0] },
    first: 0,
    n: 20,
    w_in: 0,
    w_out: 0,
    cycles: 500,
};

/// Six slots, of which five hold unfinished pieces; the right word counts ticks.
fn pieces<P: Place<AtomicU64>, Q: Place<Own>>(count: u64) -> u64 {
    let mut sides = Sides::<P, Q>::new();
    let slots = Slots::<Piece, 6>::new();
    let (head, done) = (sides.left_word.get(), sides.right_word.get());
    let (board, pulse) = (sides.left.get_mut(), sides.right.get_mut());
    both(
        || {
            let mut polls = Polls(0);
            while board.count < count {
                if done.load(SeqCst) < board.before[3] {
                    polls.poll();
                    continue;
                }
                slots.put(board.place, TWENTY);
                head.store(board.count + 1, SeqCst);
                board.count += 1;
                board.place = place_behind(board.place, 6);
                board.before = [board.ticks, board.before[0], board.before[1], board.before[2]];
                board.ticks += tick_count(&TWENTY);
            }
        },
        || {
            let mut polls = Polls(0);
            while pulse.count < count {
                if head.load(SeqCst) == pulse.count {
                    polls.poll();
                    continue;
                }
                let piece = slots.take(pulse.place);
                pulse.count += 1;
                pulse.place = place_behind(pulse.place, 6);
                for _ in 0..tick_count(&piece) {
                    pulse.ticks += 1;
                    done.store(pulse.ticks, SeqCst);
                }
            }
            pulse.count
        },
    )
}

/// 128 cells of one word each; the top bit of the head closes.
fn bytes<P: Place<AtomicU64>, Q: Place<Own>, const LOADED: bool>(count: u64) -> u64 {
    const ROOM: u64 = 128;
    const CLOSED: u64 = 1 << 63;
    let mut sides = Sides::<P, Q>::new();
    let cells: [AtomicU64; 128] = [const { AtomicU64::new(0) }; 128];
    let (head, tail) = (sides.left_word.get(), sides.right_word.get());
    let (host, board) = (sides.left.get_mut(), sides.right.get_mut());
    both(
        || {
            let mut polls = Polls(0);
            while host.count < count {
                if LOADED || host.count - host.known >= ROOM {
                    host.known = tail.load(SeqCst);
                }
                if host.count - host.known >= ROOM {
                    polls.poll();
                    continue;
                }
                cells[host.place].store(host.count % 256, SeqCst);
                head.store(host.count + 1, SeqCst);
                host.count += 1;
                host.place = place_behind(host.place, 128);
            }
            head.store(host.count + CLOSED, SeqCst);
        },
        || {
            let mut polls = Polls(0);
            loop {
                if LOADED || board.known == board.count {
                    board.known = head.load(SeqCst);
                }
                if board.known == board.count + CLOSED {
                    return board.count;
                }
                if board.known % CLOSED == board.count {
                    board.known = board.count;
                    polls.poll();
                    continue;
                }
                let _byte = std::hint::black_box(cells[board.place].load(SeqCst) as u8);
                tail.store(board.count + 1, SeqCst);
                board.count += 1;
                board.place = place_behind(board.place, 128);
            }
        },
    )
}

/// One word of flags: a hold is raised so many times, and at last a reset.
fn flags<P: Place<AtomicU64>, Q: Place<Own>>(count: u64) -> u64 {
    const HOLD: u64 = 1 << 1;
    const RESET: u64 = 1 << 4;
    let sides = Sides::<P, Q>::new();
    let word = sides.left_word.get();
    both(
        || {
            for _ in 0..count {
                std::hint::black_box(word.fetch_or(HOLD, SeqCst));
            }
            word.fetch_or(RESET, SeqCst);
        },
        || while word.fetch_and(0, SeqCst) & RESET == 0 {},
    );
    count
}

#[derive(Clone, Copy)]
#[allow(dead_code)]
enum Record {
    Head([u64; 4]),
    Event([i8; 3]),
    Mark(u64),
    End,
}

/// 1,024 places; each side loads the other's count only where its last load leaves nothing.
fn records<P: Place<AtomicU64>, Q: Place<Own>, const POLLED: bool>(count: u64) -> u64 {
    const ROOM: usize = 1024;
    let mut sides = Sides::<P, Q>::new();
    let slots = Box::new(Slots::<Record, ROOM>::new());
    let (tail, head) = (sides.left_word.get(), sides.right_word.get());
    let (pulse, recorder) = (sides.left.get_mut(), sides.right.get_mut());
    both(
        || {
            let mut polls = Polls(0);
            while pulse.count < count {
                if pulse.count - pulse.known >= ROOM as u64 {
                    pulse.known = head.load(SeqCst);
                    if pulse.count - pulse.known >= ROOM as u64 {
                        if POLLED { polls.poll() } else { rest() }
                        continue;
                    }
                }
                slots.put(pulse.place, Record::Event([1, 0, 0]));
                tail.store(pulse.count + 1, SeqCst);
                pulse.count += 1;
                pulse.place = place_behind(pulse.place, ROOM);
            }
        },
        || {
            let mut polls = Polls(0);
            while recorder.count < count {
                if recorder.known == recorder.count {
                    recorder.known = tail.load(SeqCst);
                    if recorder.known == recorder.count {
                        if POLLED { polls.poll() } else { rest() }
                        continue;
                    }
                }
                std::hint::black_box(slots.take(recorder.place));
                head.store(recorder.count + 1, SeqCst);
                recorder.count += 1;
                recorder.place = place_behind(recorder.place, ROOM);
            }
            recorder.count
        },
    )
}

/// Lets others run so many times, as the program's threads do where they wait: eight times for records, three times where the board
/// waits for the motion, and once for all else.
fn wait(times: u32) {
    for _ in 0..times {
        thread::yield_now();
    }
}

/// So many additions in memory, four instructions each.
fn work<const STEPS: usize>(seed: u64) {
    let mut sums = [seed; 4];
    for step in 0..STEPS {
        let sum = &mut sums[step % 4];
        *sum = std::hint::black_box(*sum).wrapping_add(step as u64);
    }
    std::hint::black_box(sums);
}

/// Board, pulse and recorder with nothing to do but to pass on so many events, and such work for each.
fn events<P: Place<AtomicU64>, Q: Place<Own>, const STEPS: usize>(count: u64) -> u64 {
    const ROOM: u64 = 1024;
    let mut pieces = Sides::<P, Q>::new();
    let mut records = Sides::<P, Q>::new();
    let piece_slots = Slots::<Piece, 6>::new();
    let record_slots = Box::new(Slots::<Record, 1024>::new());
    let (head, done) = (pieces.left_word.get(), pieces.right_word.get());
    let (sent, taken) = (records.left_word.get(), records.right_word.get());
    let (board, pulse) = (pieces.left.get_mut(), pieces.right.get_mut());
    let (out, recorder) = (records.left.get_mut(), records.right.get_mut());
    let board_runs = || {
        while board.ticks < count {
            if done.load(SeqCst) < board.before[3] {
                wait(3);
                continue;
            }
            piece_slots.put(board.place, TWENTY);
            head.store(board.count + 1, SeqCst);
            board.count += 1;
            board.place = place_behind(board.place, 6);
            board.before = [board.ticks, board.before[0], board.before[1], board.before[2]];
            board.ticks += tick_count(&TWENTY);
        }
    };
    let pulse_runs = || {
        let mut left = 0;
        while pulse.ticks < count {
            if left == 0 {
                if head.load(SeqCst) == pulse.count {
                    wait(1);
                    continue;
                }
                left = tick_count(&piece_slots.take(pulse.place));
                pulse.count += 1;
                pulse.place = place_behind(pulse.place, 6);
            }
            if out.count - out.known >= ROOM {
                out.known = taken.load(SeqCst);
                if out.count - out.known >= ROOM {
                    wait(1);
                    continue;
                }
            }
            work::<STEPS>(pulse.ticks);
            record_slots.put(out.place, Record::Event([1, 0, 0]));
            sent.store(out.count + 1, SeqCst);
            out.count += 1;
            out.place = place_behind(out.place, 1024);
            pulse.ticks += 1;
            left -= 1;
            done.store(pulse.ticks, SeqCst);
        }
    };
    let recorder_runs = || {
        let mut file = std::fs::File::create("steps.out").unwrap();
        let mut text = Vec::with_capacity(4096);
        while recorder.count < count {
            if recorder.known == recorder.count {
                recorder.known = sent.load(SeqCst);
                if recorder.known == recorder.count {
                    wait(8);
                    continue;
                }
            }
            work::<STEPS>(recorder.count);
            if let Record::Event(steps) = record_slots.take(recorder.place) {
                if text.len() + 3 > 4096 {
                    file.write_all(&text).unwrap();
                    text.clear();
                }
                text.extend_from_slice(if steps[0] > 0 { b"X+\n" } else { b"X-\n" });
            }
            taken.store(recorder.count + 1, SeqCst);
            recorder.count += 1;
            recorder.place = place_behind(recorder.place, 1024);
        }
        file.write_all(&text).unwrap();
        recorder.count
    };
    thread::scope(|scope| {
        scope.spawn(board_runs);
        scope.spawn(pulse_runs);
        scope.spawn(recorder_runs).join().unwrap()
    })
}

/// Host and board with nothing to do but to pass on so many lines and their answers.
fn lines<P: Place<AtomicU64>, Q: Place<Own>, const LINE: u64>(count: u64) -> u64 {
    let mut link = Sides::<P, Q>::new();
    let mut replies = Sides::<P, Q>::new();
    let (exec, overrides) = (P::of(AtomicU64::new(0)), P::of(AtomicU64::new(0)));
    let cells: [AtomicU64; 128] = [const { AtomicU64::new(0) }; 128];
    let reply_slots = Slots::<[u64; 16], 16>::new();
    let (head, tail) = (link.left_word.get(), link.right_word.get());
    let (reply_tail, reply_head) = (replies.left_word.get(), replies.right_word.get());
    let (host, board) = (link.left.get_mut(), link.right.get_mut());
    let (got, given) = (replies.left.get_mut(), replies.right.get_mut());
    let host_runs = || {
        while got.count < count {
            let is_open = host.count < count * LINE;
            let begun = host.count / LINE;
            let may_send = is_open && (begun + 1 - got.count) * LINE <= 128;
            if may_send && host.count - host.known >= 128 {
                host.known = tail.load(SeqCst);
            }
            if may_send && host.count - host.known < 128 {
                let byte = if host.count % LINE == LINE - 1 { 10 } else { 65 };
                cells[host.place].store(byte, SeqCst);
                head.store(host.count + 1, SeqCst);
                host.count += 1;
                host.place = place_behind(host.place, 128);
            } else if reply_head.load(SeqCst) == got.count {
                wait(1);
            } else {
                std::hint::black_box(reply_slots.take(got.place));
                reply_tail.store(got.count + 1, SeqCst);
                got.count += 1;
                got.place = place_behind(got.place, 16);
            }
        }
    };
    let board_runs = || {
        while given.count < count {
            if board.known == board.count {
                board.known = head.load(SeqCst);
                if board.known == board.count {
                    wait(1);
                    continue;
                }
            }
            let byte = cells[board.place].load(SeqCst);
            tail.store(board.count + 1, SeqCst);
            board.count += 1;
            board.place = place_behind(board.place, 128);
            if byte == 10 {
                std::hint::black_box(exec.get().fetch_and(0, SeqCst));
                std::hint::black_box(overrides.get().fetch_and(0, SeqCst));
                while given.count - reply_tail.load(SeqCst) >= 16 {
                    wait(1);
                }
                reply_slots.put(given.place, [given.count; 16]);
                reply_head.store(given.count + 1, SeqCst);
                given.count += 1;
                given.place = place_behind(given.place, 16);
            }
        }
        given.count
    };
    both(host_runs, board_runs)
}

/// Sends so many, with the sides' words and what each keeps for itself in such places.
fn send<P: Place<AtomicU64>, Q: Place<Own>>(what: &str, count: u64) -> Option<u64> {
    match what {
        "pieces" => Some(pieces::<P, Q>(count)),
        "bytes" => Some(bytes::<P, Q, false>(count)),
        "loaded" => Some(bytes::<P, Q, true>(count)),
        "flags" => Some(flags::<P, Q>(count)),
        "records" => Some(records::<P, Q, false>(count)),
        "polled" => Some(records::<P, Q, true>(count)),
        "events" => Some(events::<P, Q, 0>(count)),
        "busy" => Some(events::<P, Q, 20>(count)),
        "lines" => Some(lines::<P, Q, 7>(count)),
        "moves" => Some(lines::<P, Q, 8>(count)),
        _ => None,
    }
}

fn main() {
    let words: Vec<String> = env::args().skip(1).collect();
    let [what, place, count] = words.as_slice() else { process::exit(2) };
    let Ok(count) = count.parse() else { process::exit(2) };
    let came = match place.as_str() {
        "apart" => send::<Apart<AtomicU64>, Apart<Own>>(what, count),
        "beside" => send::<Beside<AtomicU64>, Beside<Own>>(what, count),
        _ => None,
    };
    match came {
        Some(came) => println!("{what} {came}"),
        None => process::exit(2),
    }
}
