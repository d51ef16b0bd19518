//! Watches the library's own selections: a process in place i of class 2 runs by the 9i-th selection, one in place j of
//! class 0 no later than selection j + j/8 rounded up (W-212). It reads words of the state and knows no rule of the model.

use model::state::CLASSES;
use model::tally::{Group, Tally};
use model::words::{COUNT_AT, CREATED_AT, QUEUE_WORDS, READY_AT, TAIL_AT, WORDS};

const NOBODY: u16 = 10;

/// The words that selections show in.
#[derive(Clone, Copy, PartialEq)]
struct View {
    queues: [u16; CLASSES * QUEUE_WORDS],
    running: u16,
    created: u16,
    count: u16,
}

impl View {
    fn of(words: &[u16; WORDS]) -> Self {
        let mut queues = [0; CLASSES * QUEUE_WORDS];
        queues.copy_from_slice(&words[READY_AT..][..CLASSES * QUEUE_WORDS]);
        View { queues, running: words[TAIL_AT], created: words[CREATED_AT], count: words[COUNT_AT] }
    }

    /// The ready processes of a class, place 1 first.
    fn class(&self, class: usize) -> &[u16] {
        let (length, members) = (self.queues[class * QUEUE_WORDS], &self.queues[class * QUEUE_WORDS + 1..]);
        &members[..usize::from(length).min(QUEUE_WORDS - 1)]
    }

    /// Whether one instruction or event from here to `after` made a selection. Another runs; or the same does, but the
    /// count has changed (at 8 a displaced process takes itself), or it is a parent that goes on after call 3.
    fn selects(&self, after: &View) -> bool {
        let same = after.running == self.running && after.count == self.count && after.created == self.created;
        after.running != NOBODY && !same
    }
}

/// A class in which each place has a bound.
#[derive(Clone, Copy, Debug, PartialEq)]
enum Bounded {
    Class0,
    Class2,
}

impl Bounded {
    const ALL: [Bounded; 2] = [Bounded::Class0, Bounded::Class2];

    fn number(self) -> usize {
        match self {
            Bounded::Class0 => 0,
            Bounded::Class2 => 2,
        }
    }

    /// The selection by which the process in the place runs.
    fn bound(self, place: usize) -> u64 {
        let place = place as u64;
        match self {
            Bounded::Class0 => place + place.div_ceil(8),
            Bounded::Class2 => 9 * place,
        }
    }

    /// Where it is counted who ran exactly at the bound, and the longest wait is kept.
    fn groups(self) -> (Group, Group) {
        match self {
            Bounded::Class0 => (Group::Bound0, Group::Longest0),
            Bounded::Class2 => (Group::Bound2, Group::Longest2),
        }
    }
}

/// A process that stood in a place after the selection `since`, and has not run yet.
#[derive(Clone, Copy)]
struct Standing {
    process: u16,
    class: Bounded,
    place: usize,
    since: u64,
}

/// Follows offers of one instruction or event each; where somebody else changes the words, it starts anew.
#[derive(Default)]
pub struct Watcher {
    last: Option<View>,
    selections: u64,
    standing: Vec<Standing>,
}

impl Watcher {
    /// Nothing before counts any more.
    pub fn start_anew(&mut self) {
        *self = Watcher::default();
    }

    /// The words before and after one instruction or event that was taken; the bound that is broken, if one is.
    pub fn watch(&mut self, before: &[u16; WORDS], after: &[u16; WORDS], tally: &mut Tally) -> Result<(), String> {
        let (before, after) = (View::of(before), View::of(after));
        if self.last != Some(before) {
            self.start_anew();
            self.find_places(&before);
        }
        self.last = Some(after);
        if before.selects(&after) {
            self.selections += 1;
            self.check(&after)?;
            self.let_run(after.running, tally);
        }
        if before.queues != after.queues {
            self.find_places(&after);
        }
        Ok(())
    }

    /// Each ready process of a bounded class, where it is new in its place.
    fn find_places(&mut self, view: &View) {
        for class in Bounded::ALL {
            for (place, &process) in (1..).zip(view.class(class.number())) {
                let here = |old: &Standing| (old.process, old.class, old.place) == (process, class, place);
                if !self.standing.iter().any(here) {
                    self.standing.push(Standing { process, class, place, since: self.selections });
                }
            }
        }
    }

    /// Whoever has come to its bound runs.
    fn check(&self, after: &View) -> Result<(), String> {
        let late = |old: &&Standing| {
            let waited = self.selections - old.since;
            old.process != after.running && waited >= old.class.bound(old.place)
        };
        let Some(Standing { process, class, place, .. }) = self.standing.iter().find(late) else { return Ok(()) };
        let (number, bound) = (class.number(), class.bound(*place));
        Err(format!("process {process} was in place {place} of class {number} and does not run by selection {bound}"))
    }

    /// The process runs: its waits are over.
    fn let_run(&mut self, running: u16, tally: &mut Tally) {
        for old in self.standing.iter().filter(|old| old.process == running) {
            let waited = self.selections - old.since;
            let (at_bound, longest) = old.class.groups();
            tally.most(longest, old.place, waited);
            if waited == old.class.bound(old.place) {
                tally.add(at_bound, old.place);
            }
        }
        self.standing.retain(|old| old.process != running);
    }
}

#[cfg(test)]
mod tests {
    use super::*;

    const WATCHED: u16 = 9;

    fn words(class_0: &[u16], class_2: &[u16], running: u16, count: u16) -> [u16; WORDS] {
        let mut words = [0; WORDS];
        for (class, members) in [(0, class_0), (2, class_2)] {
            let at = READY_AT + class * QUEUE_WORDS;
            words[at] = members.len() as u16;
            words[at + 1..][..members.len()].copy_from_slice(members);
        }
        (words[TAIL_AT], words[CREATED_AT], words[COUNT_AT]) = (running, 10, count);
        words
    }

    /// What the watcher says of the words, and what it has counted.
    fn watched(story: &[[u16; WORDS]]) -> (Result<(), String>, Tally) {
        let (mut watcher, mut tally) = (Watcher::default(), Tally::default());
        let said = story.windows(2).try_for_each(|pair| watcher.watch(&pair[0], &pair[1], &mut tally));
        (said, tally)
    }

    fn holds(story: &[[u16; WORDS]]) -> bool {
        watched(story).0.is_ok()
    }

    /// Process 9 stays in its place until it runs at the selection of that number. The others run in turn, and those
    /// in front of it stand there for a short while only, so that it is the place's own bound that is tried.
    fn waits(class: Bounded, place: usize, selections: u64) -> Vec<[u16; WORDS]> {
        let others = place.max(2) as u64;
        let frame = |turn: u64, running: u16, last: &[u16]| {
            let front = (1..place as u64).map(|behind| ((turn + behind) % others) as u16);
            let queue: Vec<u16> = front.chain(last.iter().copied()).collect();
            match class {
                Bounded::Class0 => words(&queue, &[], running, 0),
                Bounded::Class2 => words(&[], &queue, running, 0),
            }
        };
        let before = (0..selections).map(|turn| frame(turn, (turn % others) as u16, &[WATCHED]));
        before.chain([frame(selections, WATCHED, &[])]).collect()
    }

    #[test]
    fn each_place_has_its_bound() {
        let class_0 = [2, 3, 4, 5, 6, 7, 8, 9, 11].map(|bound| (Bounded::Class0, bound));
        let class_2 = [9, 18, 27, 36, 45, 54, 63, 72, 81].map(|bound| (Bounded::Class2, bound));
        for bounds in [class_0, class_2] {
            for (place, (class, bound)) in (1..).zip(bounds) {
                let (said, tally) = watched(&waits(class, place, bound));
                assert_eq!((said, tally.count(class.groups().0, place)), (Ok(()), 1));
                assert_eq!(tally.count(class.groups().1, place), bound);
                let (said, tally) = watched(&waits(class, place, bound + 1));
                let number = class.number();
                let broken =
                    format!("process 9 was in place {place} of class {number} and does not run by selection {bound}");
                assert_eq!((said, tally.count(class.groups().0, place)), (Err(broken), 0));
            }
        }
    }

    #[test]
    fn sooner_is_not_at_the_bound() {
        let (said, tally) = watched(&waits(Bounded::Class2, 2, 17));
        assert_eq!((said, tally.count(Group::Bound2, 2), tally.count(Group::Longest2, 2)), (Ok(()), 0, 17));
    }

    /// A place counts anew from when it is reached: place 1 after the first selection, so place 2's 18 do not help.
    #[test]
    fn a_better_place_has_the_shorter_bound() {
        let story = |selections: u16| {
            let mut story = vec![words(&[], &[8, 9], 0, 0)];
            story.extend((1..selections).map(|turn| words(&[], &[9], if turn == 1 { 8 } else { turn % 2 }, 0)));
            story.push(words(&[], &[], 9, 0));
            story
        };
        assert!(holds(&story(10)));
        assert_eq!(
            watched(&story(11)).0,
            Err("process 9 was in place 1 of class 2 and does not run by selection 9".to_string())
        );
    }

    /// Place 1 of class 0 has a bound of 2: two more selections are allowed only if the first change is none.
    fn is_a_selection(before: [u16; WORDS], after: [u16; WORDS]) -> bool {
        let mut next = after;
        next[TAIL_AT] = 3;
        !holds(&[before, after, next])
    }

    #[test]
    fn selections_are_recognised() {
        let before = words(&[9], &[], 1, 8);
        let changed = |at: usize, value: u16| {
            let mut after = before;
            after[at] = value;
            after
        };
        assert!(is_a_selection(before, changed(TAIL_AT, 2)));
        assert!(is_a_selection(before, changed(COUNT_AT, 0)), "it takes itself again");
        let mut made = before;
        made[CREATED_AT] = 9;
        assert!(is_a_selection(made, before), "a parent goes on after call 3");
        assert!(!is_a_selection(before, before));
        assert!(!is_a_selection(before, changed(TAIL_AT, NOBODY)));
        assert!(!is_a_selection(before, changed(READY_AT + QUEUE_WORDS, 1)), "somebody has woken");
    }

    #[test]
    fn it_starts_anew() {
        let late = waits(Bounded::Class2, 1, 10);
        let (mut watcher, mut tally) = (Watcher::default(), Tally::default());
        let mut story = |watcher: &mut Watcher, part: &[[u16; WORDS]]| {
            part.windows(2).try_for_each(|pair| watcher.watch(&pair[0], &pair[1], &mut tally)).is_ok()
        };
        assert!(story(&mut watcher, &late[..9]));
        watcher.start_anew();
        assert!(story(&mut watcher, &late[8..]), "a run of many instructions lies between");
        assert!(story(&mut watcher, &late[..9]));
        let nudged = |words: &[u16; WORDS]| {
            let mut words = *words;
            words[COUNT_AT] = 5;
            words
        };
        let changed: Vec<_> = late[8..].iter().map(nudged).collect();
        assert!(story(&mut watcher, &changed), "the count was changed between two offers");
        assert!(story(&mut watcher, &late[..9]));
        assert!(!story(&mut watcher, &late[8..]), "nothing lies between");
    }
}
