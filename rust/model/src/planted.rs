//! Easy errors that can be planted in the model, to see that the harness finds them.

use super::sound::Sentence;

macro_rules! planted {
    ($($variant:ident $name:literal,)*) => {
        #[derive(Clone, Copy, Debug, PartialEq, Eq)]
        pub enum Planted {
            $($variant,)*
            /// Soundness without one of its sentences.
            SoundMisses(Sentence),
        }

        impl Planted {
            const SINGLE: &'static [Planted] = &[$(Planted::$variant,)*];

            pub fn name(self) -> String {
                match self {
                    $(Planted::$variant => $name.into(),)*
                    Planted::SoundMisses(sentence) => format!("sound-misses-{}", sentence.name().replace(' ', "-")),
                }
            }
        }
    };
}

planted! {
    StoppedJobAnswersZero "stopped-job-answers-0",
    StopKept "stop-kept-for-next-job",
    GateOpened "gate-opened-with-waiters",
    OneClockWaiter "one-clock-waiter-woken",
    ContinuedQueues "continued-queues-behind-waiters",
    ModNeverNegative "mod-never-negative",
    DivDown "div-rounds-down",
    FalseJumpLate "stop-after-falsejump-faults",
    DoneArgument "done-argument-at-any-status",
    DoneOperationReread "done-rereads-operation",
    SecondsRange "seconds-go-to-32768",
    SliceKeepsClass "slice-end-keeps-class-1",
    SliceWaits "slice-end-needs-better-class",
    Call3Reversed "call-3-words-reversed",
    Call3Uncleared "call-3-part-not-cleared",
    ExitOldB "exit-old-b-untested",
    RefusedTicks "refused-event-ticks",
    DelayKeepsClass "delay-keeps-class-0",
    LeaveKeepsClass "leave-falls-to-class-1",
    BellBusy "bell-wait-needs-free-terminal",
    BellStarts "bell-wait-ends-run",
    RecordStraddles "record-may-straddle",
    IndexOrder "index-2-before-3",
    IndexWraps "index-in-16-bits",
    CaseWraps "casejump-in-16-bits",
    CallProgOrder "callprog-8-before-7",
    NoRoomUnwinds "no-room-unwinds-job",
    FaultAnswersReason "jobs-fault-answers-reason",
    StackToCeiling "stack-words-to-ceiling",
    JobRegion "jobs-region-ends-at-c",
    StopJobOrder "call-5-4-before-3",
    Call2Pops "call-2-pops",
    NewGateOrder "call-10-8-before-9",
    EqualPreempts "equal-class-preempts",
    SliceReset "slice-reset-at-wait",
    RunIdleFirst "run-idle-before-budget",
    RunCountsOver "run-counts-stop-twice",
    StoppedBeforeSound "refusal-8-before-7",
    SoundBeforeLengths "refusal-7-before-6",
    SurplusUnchecked "surplus-blocks-unchecked",
    BlockNumberWraps "block-number-wraps",
    FillUnchecked "fill-unchecked",
    LoadKeepsStores "load-keeps-stores",
    LoadShortFirst "load-10-before-6",
    WaitsFirst "enter-waits-first",
    LastWaiterHolds "leave-wakes-last-waiter",
    ReceivedFirst "received-gate-counts-as-oldest",
    DelayReplaces "delay-on-filled-cell",
    PreemptedToHead "preempted-goes-to-head",
    ChildFirst "child-runs-at-once",
    ParentStays "parent-stays-at-call-3",
    EightIsNine "eight-counted-as-nine",
    EightIsSeven "eight-counted-as-seven",
    LowestStarves "class-2-not-served-by-the-count",
    CountKept "count-kept-after-class-2",
    CountsAlways "count-grows-while-class-2-is-empty",
    CountFalls "count-8-falls-while-class-2-is-empty",
    LookedAtEarly "class-2-looked-at-before-displaced-joins",
    NeverMarked "never-marked",
    MarkedAny "marked-by-any-selection-from-class-2",
    MarkNeedsBetter "marked-only-over-a-better-class",
    MarkDoesNotHold "marked-process-displaced",
    HoldersDisplace "marked-process-displaced-by-class-0",
    SliceAnew "slice-anew-at-selection-by-the-count",
    SliceKeepsMark "mark-kept-at-slice-end",
    RunsOnMarked "mark-kept-where-it-runs-on-at-slice-end",
    WaitKeepsMark "mark-kept-over-a-wait",
    Call3KeepsMark "mark-kept-over-call-3",
    EnterUnmarks "mark-lost-entering-open-gate",
    LeaveUnmarks "mark-lost-leaving",
    ContinueUnmarks "mark-lost-continuing",
    NewGateUnmarks "mark-lost-making-gate",
    ClockClass "clock-wakes-into-class-1",
    SliceBeforeClock "slice-ends-before-clock-wakes",
    EndedClass "end-falls-to-class-2",
    JobLine "jobs-line-not-kept",
    RequestOrder "call-11-3-before-2",
    AbsentBell "bell-wait-without-terminal",
    DoneIntoRunning "done-into-running-part",
    UntakenTarget "untaken-target-tested",
    CallOrder "call-6-before-7",
    IdleCounts "idle-step-counts-1",
    BudgetOverStart "budget-wins-over-start",
    RunMovesAddress "run-only-moves-address",
    SoundBestRuns "sound-wants-best-class-to-run",
    SoundTerminalControl "sound-forbids-busy-terminal-control",
    SoundBellTerminal "sound-wants-terminal-for-bell",
    SoundSavedZero "sound-wants-saved-0-outside-jobs",
    SoundUncreated "sound-reads-uncreated-processes",
    BlockCut "refused-block-cut-to-16-bits",
    DeviceUnnamed "started-device-not-named",
    CountCut "run-count-cut-to-8-bits",
    LoadTouchesMore "load-clears-code-behind-n",
    WriteTouchesMore "write-clears-bytes-behind-image",
    RecordTouchesMore "record-clears-fifth-word",
    RecordStops "record-refuses-a-stopped-machine",
    RecordShortFirst "record-10-before-9",
    RecordOfRunning "record-from-running-part",
    RecordKeptOperation "record-shows-kept-operation",
}

impl Planted {
    pub fn all() -> Vec<Planted> {
        let sentences = Sentence::ALL.iter().copied().filter(|sentence| sentence.may_be_missed());
        Planted::SINGLE.iter().copied().chain(sentences.map(Planted::SoundMisses)).collect()
    }

    pub fn named(name: &str) -> Option<Planted> {
        Planted::all().into_iter().find(|planted| planted.name() == name)
    }
}
