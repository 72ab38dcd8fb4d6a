//! Timers that are brought to their end.

use crate::{bytes_text, Maker};
use plants::{Timer, FIRST_TIMER, FRAME_SLOTS, SLOT_LIMIT};

impl Maker {
    /// Idle cells that bring some timer to its end, or one short of it.
    pub(super) fn wait(&mut self, which: Timer) {
        let mut left: Vec<u32> = Vec::new();
        self.runner.line().each(|_, bench| {
            if let Some((timer, cells)) = bench.timer() {
                if timer == which && cells > 0 {
                    left.push(cells);
                }
            }
        });
        let Some(&soonest) = left.iter().min() else {
            return;
        };
        let cells = match which {
            Timer::First => soonest,
            Timer::Second if self.random.flag() => soonest,
            Timer::Second => self.random.one_of(&left),
        };
        if which == Timer::First {
            self.waited += cells;
            if self.waited > FIRST_TIMER + FIRST_TIMER / 8 {
                return; // costly
            }
        }
        let count = match self.random.below(4) {
            0 => cells + 1,
            1 => cells.max(2) - 1,
            2 => cells.max(3) - 2,
            _ => cells,
        };
        let bytes = self.idle();
        if self.slot >= SLOT_LIMIT - 10_000_000 {
            self.slot = FRAME_SLOTS * self.random.below(1_000);
        }
        // Refusals by the hundred thousand tell nothing.
        let needed = 27 * self.runner.line().count();
        if self.runner.list().free() < needed {
            self.say(format!("room {}", 4 * needed));
        }
        let slot = self.slot;
        self.say(format!("repeat {count} {slot} {}", bytes_text(&bytes)));
        self.slot += 27 * u64::from(count);
    }

    /// Waits for a timer and looks closely at its last cells.
    pub(super) fn run_out(&mut self, which: Timer) {
        self.wait(which);
        for _ in 0..self.random.between(3, 8) {
            self.say("show".to_string());
            if which == Timer::Second && self.random.once_in(3) {
                self.lose_operating();
            }
            let bytes = if self.random.flag() {
                self.idle()
            } else {
                self.cell()
            };
            self.hear(&bytes);
        }
        self.say("show".to_string());
    }
}
