//! Selection: who runs after an instruction or event, the count and the mark.

use super::machine::Machine;
use super::planted::Planted;
use super::state::*;
use super::tally::{Group, MarkEnd, Selection};

impl Machine<'_> {
    /// The process joins the tail of its class.
    pub fn join(&mut self, process: u8) {
        let class = self.state.processes[usize::from(process)].class;
        self.state.ready[usize::from(class)].push_back(process);
    }

    /// After each instruction and event: a better class displaces who runs; with nobody running likewise.
    pub fn select(&mut self) {
        let Some(best) = self.state.ready.iter().position(|queue| !queue.is_empty()) else { return };
        let class_2_waits = |state: &State| !state.ready[LOWEST].is_empty();
        let early = class_2_waits(&self.state);
        let before = self.state.running;
        if let Some(running) = before {
            if !self.is_displaced(running, best) {
                return;
            }
            self.displace(running);
        }
        let late = class_2_waits(&self.state);
        self.take(best, if self.is(Planted::LookedAtEarly) { early } else { late });
        if before.is_some() && before == self.state.running {
            self.tally.add(Group::Selection, Selection::ItselfAgain as usize);
        }
    }

    /// By a strictly better class, and not while it is marked.
    fn is_displaced(&mut self, running: u8, best: usize) -> bool {
        let class = usize::from(self.state.processes[usize::from(running)].class);
        let better = best < class || self.is(Planted::EqualPreempts) && best == class;
        let weak = self.is(Planted::MarkDoesNotHold) || best == 0 && self.is(Planted::HoldersDisplace);
        if better && self.state.mark && !weak {
            self.tally.add(Group::MarkHolds, best);
            return false;
        }
        better
    }

    fn displace(&mut self, running: u8) {
        self.tally.add(Group::Moves, 0);
        if self.is(Planted::PreemptedToHead) {
            let class = usize::from(self.state.processes[usize::from(running)].class);
            self.state.ready[class].push_front(running);
        } else {
            self.join(running);
        }
    }

    /// A selection: at the count of 8 from class 2 if somebody waits there, else from the best class.
    fn take(&mut self, best: usize, class_2_waits: bool) {
        let by_count = class_2_waits && self.state.count >= self.due() && !self.is(Planted::LowestStarves);
        let class = if by_count { LOWEST } else { best };
        self.note(best, class, by_count);
        self.state.running = self.state.ready[class].pop_front();
        self.state.count = self.count_after(class, class_2_waits);
        // Who ran before has no mark any more: it was not displaced with one, or has given up the processor.
        if self.is_marking(best, class, by_count) {
            self.state.mark = true;
        }
        if let Some(running) = self.state.running.filter(|_| by_count && self.is(Planted::SliceAnew)) {
            self.state.processes[usize::from(running)].slice = 0;
        }
    }

    fn due(&self) -> u8 {
        if self.is(Planted::EightIsNine) {
            DUE + 1
        } else if self.is(Planted::EightIsSeven) {
            DUE - 1
        } else {
            DUE
        }
    }

    /// The count after a selection from `class`.
    fn count_after(&self, class: usize, class_2_waits: bool) -> u8 {
        let (count, due) = (self.state.count, self.due());
        match class {
            LOWEST if self.is(Planted::CountKept) => count,
            LOWEST => 0,
            _ if count >= due && self.is(Planted::CountFalls) => 0,
            _ if count < due && (class_2_waits || self.is(Planted::CountsAlways)) => count + 1,
            _ => count,
        }
    }

    /// Whether the process selected is marked: by the count, and by nothing else.
    fn is_marking(&self, best: usize, class: usize, by_count: bool) -> bool {
        if self.is(Planted::MarkedAny) {
            return class == LOWEST;
        }
        let missed = self.is(Planted::NeverMarked) || best == LOWEST && self.is(Planted::MarkNeedsBetter);
        by_count && !missed
    }

    fn note(&mut self, best: usize, class: usize, by_count: bool) {
        self.tally.add(Group::Selection, class);
        if by_count {
            self.tally.add(Group::ByCount, best);
        } else if class < LOWEST && self.state.count == DUE {
            self.tally.add(Group::Selection, Selection::EmptyAtEight as usize);
        }
    }

    /// The running process has no mark any more.
    pub fn end_mark(&mut self, how: MarkEnd) {
        if !self.state.mark {
            return;
        }
        self.tally.add(Group::MarkEnd, how as usize);
        self.state.mark = match how {
            MarkEnd::SliceToTail => self.is(Planted::SliceKeepsMark),
            MarkEnd::SliceRunsOn => self.is(Planted::SliceKeepsMark) || self.is(Planted::RunsOnMarked),
            MarkEnd::NewProcess => self.is(Planted::Call3KeepsMark),
            _ => self.is(Planted::WaitKeepsMark),
        };
    }
}
