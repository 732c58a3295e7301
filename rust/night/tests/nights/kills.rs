//! Random nights in which night, or the shift program beneath it, is killed at random moments, and what is there after
//! each recovery.

use std::process::Command;
use std::thread::sleep;
use std::time::{Duration, Instant};

use ordinary::shift::Shift;

use crate::random::Random;
use crate::support::{script, Place, Running, Script};

/// So many kills at least, in all.
const KILLS: usize = 1500;

#[derive(Default, Debug)]
struct Tally {
    nights: usize,
    calls: usize,
    night_killed: usize,
    killed_while_recovering: usize,
    shift_killed: usize,
    in_flight_kept: usize,
    in_flight_lost: usize,
}

impl Tally {
    fn kills(&self) -> usize {
        self.night_killed + self.killed_while_recovering + self.shift_killed
    }
}

/// A night in the middle of its script.
struct Test<'s> {
    script: &'s Script,
    place: Place,
    /// How many steps of the script are answered.
    answered: usize,
    /// How many calls are in the journal.
    kept: usize,
    tally: &'s mut Tally,
    random: &'s mut Random,
}

#[test]
fn no_answered_call_is_lost_whoever_is_killed_when() {
    let start = Instant::now();
    let mut tally = Tally::default();
    let mut random = Random::new(4711);
    while tally.kills() < KILLS {
        let script = script(9000 + tally.nights as u64, 150);
        let place = Place::new("kills", &script.configuration);
        let mut test = Test { script: &script, place, answered: 0, kept: 0, tally: &mut tally, random: &mut random };
        test.run();
        tally.nights += 1;
    }
    println!("{tally:?}, {} kills in {:.0?}", tally.kills(), start.elapsed());
    assert!(tally.shift_killed > 100 && tally.night_killed > 100 && tally.killed_while_recovering > 20);
}

impl Test<'_> {
    fn run(&mut self) {
        let mut running = self.place.start();
        while self.answered < self.script.steps.len() {
            running = match self.random.below(6) {
                0 => self.kill_night(running),
                1 => self.kill_shift(running),
                _ => self.talk(running),
            };
        }
        running.finish();
    }

    /// Some steps, mostly one: where they end.
    fn next(&mut self) -> usize {
        let count = if self.random.percent(60) { 1 } else { self.random.within(2..=12) };
        (self.answered + count).min(self.script.steps.len())
    }

    fn text(&self, to: usize) -> Vec<u8> {
        self.script.steps[self.answered..to].iter().flat_map(|step| step.text.clone()).collect()
    }

    fn calls(&self, from: usize, to: usize) -> usize {
        self.script.steps[from..to].iter().filter(|step| step.is_kept).count()
    }

    /// Reads what is due to the steps, which must come as it is due.
    fn hear(&mut self, running: &mut Running, to: usize) {
        for at in self.answered..to {
            let due = &self.script.steps[at].due;
            assert_eq!(shown(&running.answer(due.len())), shown(due));
        }
        self.kept += self.calls(self.answered, to);
        self.tally.calls += self.calls(self.answered, to);
        self.answered = to;
    }

    fn talk(&mut self, mut running: Running) -> Running {
        let to = self.next();
        running.send(&self.text(to));
        self.hear(&mut running, to);
        running
    }

    /// Kills the shift program at some moment; every answer comes all the same.
    fn kill_shift(&mut self, mut running: Running) -> Running {
        let to = self.next();
        running.send(&self.text(to));
        self.wait(1500);
        self.tally.shift_killed += usize::from(kill_child_of(running.child.id()));
        self.hear(&mut running, to);
        running
    }

    /// Kills night at some moment, starts it again, and looks at what is there.
    fn kill_night(&mut self, mut running: Running) -> Running {
        let to = self.next();
        running.send(&self.text(to));
        self.wait(4000);
        let given = running.kill();
        self.tally.night_killed += 1;
        let answered = self.given_out(&given, to);
        self.kept += self.calls(self.answered, answered);
        self.tally.calls += self.calls(self.answered, answered);
        self.answered = answered;
        while self.random.percent(20) {
            self.kill_recovering();
        }
        self.recover(to)
    }

    /// How many steps the answers that were given out belong to: they are as due, up to where they end.
    fn given_out(&self, given: &[u8], to: usize) -> usize {
        let mut rest = given;
        let mut at = self.answered;
        while at < to && rest.starts_with(&self.script.steps[at].due) {
            rest = &rest[self.script.steps[at].due.len()..];
            at += 1;
        }
        assert!(rest.is_empty() || at < to && self.script.steps[at].due.starts_with(rest), "{}", shown(rest));
        at
    }

    /// Kills a night that is playing its journal back, or the program beneath it.
    fn kill_recovering(&mut self) {
        let running = self.place.start();
        self.wait(6000);
        if self.random.percent(30) && kill_child_of(running.child.id()) {
            self.tally.shift_killed += 1;
            self.wait(3000);
        }
        assert_eq!(running.kill(), b"");
        self.tally.killed_while_recovering += 1;
    }

    /// Starts the night again. `to` is how far the steps were in flight.
    fn recover(&mut self, to: usize) -> Running {
        // A night that was killed early had no journal yet.
        let journal = self.place.journal();
        let kept = if journal.exists() { night::store::look_at(&journal).unwrap().calls.len() } else { 0 };
        let in_flight = self.calls(self.answered, to);
        assert!((self.kept..=self.kept + in_flight).contains(&kept), "{kept} calls kept of {}", self.kept);
        self.tally.in_flight_kept += kept - self.kept;
        self.tally.in_flight_lost += self.kept + in_flight - kept;
        let mut due = kept - self.kept;
        while due > 0 {
            due -= usize::from(self.script.steps[self.answered].is_kept);
            self.answered += 1;
        }
        self.kept = kept;
        let mut running = self.place.start();
        self.compare(&mut running);
        running
    }

    /// The board and some packets are those of the ordinary cell after exactly the calls that are kept.
    fn compare(&mut self, running: &mut Running) {
        let before = self.answered.checked_sub(1);
        let mut ordinary: Shift = before.map_or(&self.script.fresh, |at| &self.script.steps[at].after).clone();
        let mut lines = vec!["BOARD".to_string()];
        for _ in 0..5 {
            lines.push(format!("STATUS {} {}", self.random.below(16), self.random.below(16)));
        }
        for line in lines {
            let due = ordinary.answer_line(line.as_bytes());
            running.send(format!("{line}\n").as_bytes());
            assert_eq!(shown(&running.answer(due.len())), shown(&due));
        }
    }

    fn wait(&mut self, most: usize) {
        let micros = if self.random.percent(20) { 0 } else { self.random.below(most) };
        sleep(Duration::from_micros(micros as u64));
    }
}

fn shown(text: &[u8]) -> String {
    String::from_utf8_lossy(text).into_owned()
}

/// Kills the process that this one has started, if there is one just now.
fn kill_child_of(parent: u32) -> bool {
    let children = std::fs::read_to_string(format!("/proc/{parent}/task/{parent}/children")).unwrap_or_default();
    let Some(child) = children.split_whitespace().next() else { return false };
    Command::new("kill").args(["-9", child]).stderr(std::process::Stdio::null()).status().unwrap().success()
}
