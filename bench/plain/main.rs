//! The job of `grbl stream --lockstep SEED` in plain Rust, to measure the proved program beside it: the same four actors on one
//! thread, whose turns come in the same order and do the same each, so that the same texts come out, byte by byte.
//!
//! It serves lines of G-code without M codes, dwells, G28, G30 and soft limits, and lines that set a setting. It has no realtime
//! bytes but the `~` that a host sends by itself, and so no reports, holds, overrides, jogs and resets. Where a job has one of
//! these it ends with a panic. It proves nothing.
mod board;
mod gcode;
mod geometry;
mod host;
mod line;
mod link;
mod plan;
mod pulse;
mod recorder;
mod settings;
mod text;

use board::Board;
use host::Host;
use link::{Link, Turn};
use pulse::Pulse;
use recorder::Recorder;
use std::fs::File;
use std::os::fd::AsFd;
use std::{env, io};

const MULTIPLIER: u64 = 6_364_136_223_846_793_005;
const INCREMENT: u64 = 1_442_695_040_888_963_407;

/// The number that chooses the next turn; its two highest bits say whose it is.
fn step(state: u64) -> u64 {
    state.wrapping_mul(MULTIPLIER).wrapping_add(INCREMENT)
}

/// The four actors.
struct World {
    host: Host<File, File>,
    board: Board,
    pulse: Pulse,
    recorder: Recorder,
    link: Link,
}

impl World {
    /// Whether the pulse finds no piece, and the recorder no record: then a turn of either would change nothing.
    fn rests(&self) -> bool {
        self.link.pieces.is_empty() && self.link.records.is_empty() && self.pulse.awaits_piece() && self.recorder.takes()
    }

    /// Takes turns until all four actors are done. Whether the motion rests is asked once in 64 turns, and holds until the board
    /// publishes a piece; the turns of pulse and recorder are passed over so long.
    fn run(&mut self, seed: u64) {
        let mut state = seed;
        let mut ended: u8 = 0;
        while ended != 0b1111 {
            let mut rests = self.rests();
            for _ in 0..64 {
                state = step(state);
                let actor = state >> 62;
                let turn = match actor {
                    0 => self.host.turn(&mut self.link),
                    1 => {
                        let turn = self.board.turn(&mut self.link);
                        rests &= self.link.pieces.is_empty();
                        turn
                    }
                    _ if rests => continue,
                    2 => self.pulse.turn(&mut self.link),
                    _ => self.recorder.turn(&mut self.link.records),
                };
                if turn == Turn::Done {
                    ended |= 1 << actor;
                }
            }
        }
    }
}

fn main() -> io::Result<()> {
    let seed = env::args().nth(1).and_then(|word| word.parse().ok()).expect("usage: plain SEED");
    let job = File::from(io::stdin().as_fd().try_clone_to_owned()?);
    let console = File::from(io::stdout().as_fd().try_clone_to_owned()?);
    World {
        host: Host::new(job, console),
        board: Board::new(),
        pulse: Pulse::new(),
        recorder: Recorder::new(File::create("steps.out")?),
        link: Link::new(),
    }
    .run(seed);
    Ok(())
}
