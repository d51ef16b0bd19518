//! The state as the 822 words in which it crosses.

use super::state::*;

pub const WORDS: usize = 822;
pub const PROCESS_WORDS: usize = 24;
pub const GATE_WORDS: usize = 20;
pub const QUEUE_WORDS: usize = 11;
pub const DEVICE_WORDS: usize = 3;
pub const GATES_AT: usize = PROCESSES * PROCESS_WORDS;
pub const READY_AT: usize = GATES_AT + GATES * GATE_WORDS;
pub const CLOCK_AT: usize = READY_AT + CLASSES * QUEUE_WORDS;
pub const BELL_AT: usize = CLOCK_AT + QUEUE_WORDS;
pub const DEVICES_AT: usize = BELL_AT + QUEUE_WORDS;
pub const TAIL_AT: usize = DEVICES_AT + DEVICES * DEVICE_WORDS;
pub const CREATED_AT: usize = TAIL_AT + 1;
pub const FRACTION_AT: usize = TAIL_AT + 6;
pub const LENGTH_AT: usize = TAIL_AT + 8;
pub const COUNT_AT: usize = TAIL_AT + 10;
pub const MARK_AT: usize = TAIL_AT + 11;
const HELD_AT: usize = 15;
const NOBODY: u16 = 10;

const PROCESS_FIELDS: [&str; PROCESS_WORDS] = [
    "address",
    "line",
    "S",
    "B",
    "C",
    "in job",
    "saved S",
    "saved B",
    "saved address",
    "p",
    "reason",
    "V",
    "slice",
    "class",
    "holds",
    "held 0",
    "held 1",
    "held 2",
    "held 3",
    "held 4",
    "held 5",
    "held 6",
    "held 7",
    "ended",
];
const TAIL_FIELDS: [&str; 12] = [
    "running", "created", "made", "stop", "line", "seconds", "fraction", "edition", "length", "present", "count",
    "mark",
];

fn byte(word: u16) -> Option<u8> {
    u8::try_from(word).ok()
}

fn flag(word: u16) -> Option<bool> {
    (word <= 1).then_some(word == 1)
}

fn someone(word: u16) -> Option<Option<u8>> {
    byte(word).map(|number| (word != NOBODY).then_some(number))
}

fn queue(words: &[u16]) -> Option<Queue> {
    let (&length, members) = words.split_first()?;
    if members.iter().any(|&member| member > 255) {
        return None;
    }
    let used = members.get(..usize::from(length))?;
    Some(used.iter().map(|&member| member as u8).collect())
}

fn process(words: &[u16]) -> Option<Process> {
    let holds = usize::from(words[14]);
    Some(Process {
        address: words[0],
        line: words[1],
        s: words[2],
        b: words[3],
        c: words[4],
        in_job: flag(words[5])?,
        saved: Saved { s: words[6], b: words[7], address: words[8], p: words[9] },
        reason: words[10],
        v: words[11],
        slice: byte(words[12])?,
        class: byte(words[13])?,
        held: words[HELD_AT..HELD_AT + HELD].get(..holds)?.iter().map(|&gate| gate as u8).collect(),
        ended: flag(words[23])?,
    })
}

/// Whether the words that are bytes in the machine are bytes, of a process
/// that was not created as well.
fn has_bytes(words: &[u16]) -> bool {
    words[5] <= 1 && words[23] <= 1 && words[12..HELD_AT + HELD].iter().all(|&word| word <= 255)
}

fn gate(words: &[u16]) -> Option<Gate> {
    let mut cells = [None; CELLS];
    for (cell, &word) in cells.iter_mut().zip(&words[12..]) {
        *cell = someone(word)?;
    }
    Some(Gate { holder: someone(words[0])?, queue: queue(&words[1..12])?, cells })
}

fn device(words: &[u16]) -> Option<Option<Busy>> {
    let operation = byte(words[1])?;
    Some(someone(words[0])?.map(|process| Busy { process, operation, record: words[2] }))
}

fn devices(words: &[u16]) -> Option<[Option<Busy>; DEVICES]> {
    let mut devices = [None; DEVICES];
    for (place, words) in devices.iter_mut().zip(words.chunks_exact(DEVICE_WORDS)) {
        *place = device(words)?;
    }
    Some(devices)
}

/// The state that `words` are packed from, if there is one.
pub fn decode(words: &[u16]) -> Option<State> {
    if words.len() != WORDS {
        return None;
    }
    let records = words[..GATES_AT].chunks_exact(PROCESS_WORDS);
    let created = usize::from(words[CREATED_AT]);
    if created > PROCESSES || !records.clone().all(has_bytes) {
        return None;
    }
    let processes = records.take(created).map(process).collect::<Option<Vec<_>>>()?;
    let gates = words[GATES_AT..READY_AT].chunks_exact(GATE_WORDS).map(gate).collect::<Option<Vec<_>>>()?;
    let mut queues = words[READY_AT..DEVICES_AT].chunks_exact(QUEUE_WORDS).map(queue);
    let mut next_queue = || queues.next().flatten();
    let ready = [next_queue()?, next_queue()?, next_queue()?];
    let (clock, bell) = (next_queue()?, next_queue()?);
    let devices = devices(&words[DEVICES_AT..TAIL_AT])?;
    let tail = &words[TAIL_AT..];
    Some(State {
        processes,
        gates,
        made: usize::from(byte(tail[2])?),
        ready,
        clock,
        bell,
        devices,
        running: someone(tail[0])?,
        stop: someone(tail[3])?,
        stop_line: tail[4],
        seconds: tail[5],
        fraction: tail[6],
        edition: tail[7],
        length: tail[8],
        present: tail[9],
        count: byte(tail[10])?,
        mark: flag(tail[11])?,
    })
}

fn put_queue(words: &mut [u16], queue: &Queue) {
    words[0] = queue.len() as u16;
    for (word, &member) in words[1..].iter_mut().zip(queue) {
        *word = u16::from(member);
    }
}

fn number(someone: Option<u8>) -> u16 {
    someone.map_or(NOBODY, u16::from)
}

fn put_process(record: &mut [u16], p: &Process) {
    record[..15].copy_from_slice(&[
        p.address,
        p.line,
        p.s,
        p.b,
        p.c,
        u16::from(p.in_job),
        p.saved.s,
        p.saved.b,
        p.saved.address,
        p.saved.p,
        p.reason,
        p.v,
        u16::from(p.slice),
        u16::from(p.class),
        p.held.len() as u16,
    ]);
    for (word, &gate) in record[HELD_AT..].iter_mut().zip(&p.held) {
        *word = u16::from(gate);
    }
    record[23] = u16::from(p.ended);
}

/// The words of `state`; those that no sentence uses are 0.
pub fn encode(state: &State) -> [u16; WORDS] {
    let mut words = [0; WORDS];
    for (record, process) in words.chunks_exact_mut(PROCESS_WORDS).zip(&state.processes) {
        put_process(record, process);
    }
    for (record, gate) in words[GATES_AT..READY_AT].chunks_exact_mut(GATE_WORDS).zip(&state.gates) {
        record[0] = number(gate.holder);
        put_queue(&mut record[1..12], &gate.queue);
        for (word, &cell) in record[12..].iter_mut().zip(&gate.cells) {
            *word = number(cell);
        }
    }
    let queues = state.ready.iter().chain([&state.clock, &state.bell]);
    for (record, queue) in words[READY_AT..DEVICES_AT].chunks_exact_mut(QUEUE_WORDS).zip(queues) {
        put_queue(record, queue);
    }
    for (record, device) in words[DEVICES_AT..TAIL_AT].chunks_exact_mut(DEVICE_WORDS).zip(&state.devices) {
        record[0] = NOBODY;
        if let Some(busy) = device {
            record.copy_from_slice(&[u16::from(busy.process), u16::from(busy.operation), busy.record]);
        }
    }
    words[TAIL_AT..].copy_from_slice(&[
        number(state.running),
        state.processes.len() as u16,
        state.made as u16,
        number(state.stop),
        state.stop_line,
        state.seconds,
        state.fraction,
        state.edition,
        state.length,
        state.present,
        u16::from(state.count),
        u16::from(state.mark),
    ]);
    words
}

/// The words with everything set to 0 that says nothing: what lies behind the
/// end of a list, processes not created, and the request of an idle device.
pub fn canonical(words: &[u16; WORDS]) -> [u16; WORDS] {
    let mut plain = *words;
    let created = usize::from(words[CREATED_AT]).min(PROCESSES);
    for record in plain[..created * PROCESS_WORDS].chunks_exact_mut(PROCESS_WORDS) {
        let holds = usize::from(record[14]).min(HELD);
        record[HELD_AT + holds..HELD_AT + HELD].fill(0);
    }
    plain[created * PROCESS_WORDS..GATES_AT].fill(0);
    let clear_behind = |queue: &mut [u16]| {
        let used = usize::from(queue[0]).min(QUEUE_WORDS - 1);
        queue[1 + used..].fill(0);
    };
    for gate in plain[GATES_AT..READY_AT].chunks_exact_mut(GATE_WORDS) {
        clear_behind(&mut gate[1..12]);
    }
    plain[READY_AT..DEVICES_AT].chunks_exact_mut(QUEUE_WORDS).for_each(clear_behind);
    for device in plain[DEVICES_AT..TAIL_AT].chunks_exact_mut(DEVICE_WORDS) {
        if device[0] == NOBODY {
            device[1..].fill(0);
        }
    }
    plain
}

/// The name of one of the 822 words, for a reader of a difference.
pub fn field(index: usize) -> String {
    let queue_word = |at: usize| match at {
        0 => "length".to_string(),
        place => format!("member {}", place - 1),
    };
    if index < GATES_AT {
        format!("process {} {}", index / PROCESS_WORDS, PROCESS_FIELDS[index % PROCESS_WORDS])
    } else if index < READY_AT {
        let (gate, word) = ((index - GATES_AT) / GATE_WORDS, (index - GATES_AT) % GATE_WORDS);
        match word {
            0 => format!("gate {gate} holder"),
            1..=11 => format!("gate {gate} queue {}", queue_word(word - 1)),
            _ => format!("gate {gate} cell {}", word - 12),
        }
    } else if index < DEVICES_AT {
        let (queue, word) = ((index - READY_AT) / QUEUE_WORDS, (index - READY_AT) % QUEUE_WORDS);
        let name = ["ready 0", "ready 1", "ready 2", "clock", "bell"][queue];
        format!("{name} {}", queue_word(word))
    } else if index < TAIL_AT {
        let (device, word) = ((index - DEVICES_AT) / DEVICE_WORDS, (index - DEVICES_AT) % DEVICE_WORDS);
        format!("device {device} {}", ["process", "operation", "record"][word])
    } else {
        TAIL_FIELDS[index - TAIL_AT].to_string()
    }
}
