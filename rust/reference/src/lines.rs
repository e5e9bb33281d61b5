//! The interrupt lines: what each keeps, request 110, and the look at one.

use crate::answer::{refuse_if, Answer, Refusal};
use crate::bench::State;
use crate::bytes::number_at;

/// The indices by number: how many lines each has, and its flags.
pub const INDICES: [(u64, u64); 4] = [(1, 7), (8, 9), (16, 9), (0, 0)];

// Flags of an index.
const MASKABLE: u64 = 2;
const AUTOMASKED: u64 = 4;

// Flags of request 110: what the data are, and what is done.
const NONE: u64 = 1;
const BOOL: u64 = 2;
const EVENT: u64 = 4;
const MASK: u64 = 8;
const UNMASK: u64 = 16;
const TRIGGER: u64 = 32;

/// Where the data of request 110 begin.
const DATA: u64 = 20;
const UNASSIGNED: i64 = -1;
const YES: u8 = 1;
const NO: u8 = 0;
/// Tallies are counted modulo this.
const TALLIES: u64 = 1 << 32;

/// What a line keeps. The flags are bytes: 1 says yes, and every other value no.
#[derive(Clone, Copy, Debug, PartialEq, Eq)]
pub struct Line {
    pub number: i64,
    pub masked: u8,
    pub pending: u8,
    pub tally: u64,
}

/// The lines of each index.
pub type Lines = [Vec<Line>; INDICES.len()];

impl Line {
    /// A line whose number was stored just now.
    pub fn stored(number: i64) -> Line {
        Line {
            number,
            masked: NO,
            pending: NO,
            tally: 0,
        }
    }

    pub fn disabled() -> Line {
        Line::stored(UNASSIGNED)
    }

    pub fn is_masked(&self) -> bool {
        self.masked == YES
    }

    pub fn is_pending(&self) -> bool {
        self.pending == YES
    }

    /// A masked line only notes the event.
    fn trigger(&mut self, automasked: bool) {
        if self.is_masked() {
            self.pending = YES;
            return;
        }
        self.tally = (self.tally + 1) % TALLIES;
        if automasked {
            self.masked = YES;
        }
    }

    fn unmask(&mut self, automasked: bool) {
        self.masked = NO;
        if self.is_pending() {
            self.pending = NO;
            self.trigger(automasked);
        }
    }

    /// Nothing is done to a line without a number.
    fn act(&mut self, action: u64, automasked: bool) {
        if self.number < 0 {
            return;
        }
        match action {
            MASK => self.masked = YES,
            UNMASK => self.unmask(automasked),
            _ => self.trigger(automasked),
        }
    }
}

/// What a fresh start and a reset leave.
pub fn disabled() -> Lines {
    INDICES.map(|(count, _)| vec![Line::disabled(); count as usize])
}

/// The one thing that is wrong of lines is a number below -1.
pub fn sound(lines: &Lines) -> bool {
    lines.iter().flatten().all(|line| line.number >= UNASSIGNED)
}

/// What request 110 asks for: argsz 0..4, flags 4..8, index 8..12, start 12..16, count 16..20, data.
struct Asked<'b> {
    argsz: u64,
    kind: u64,
    action: u64,
    index: u64,
    start: u64,
    count: u64,
    data: &'b [u8],
}

impl Asked<'_> {
    fn read(buffer: &[u8]) -> Asked<'_> {
        let flags = number_at(buffer, 4, 4);
        let kind = flags & (NONE | BOOL | EVENT);
        Asked {
            argsz: number_at(buffer, 0, 4),
            kind,
            action: flags - kind,
            index: number_at(buffer, 8, 4),
            start: number_at(buffer, 12, 4),
            count: number_at(buffer, 16, 4),
            data: &buffer[DATA as usize..],
        }
    }

    fn disables(&self) -> bool {
        self.kind == NONE && self.action == TRIGGER && self.count == 0
    }

    /// Bytes of data for each line.
    fn width(&self) -> u64 {
        match self.kind {
            BOOL => 1,
            EVENT => 4,
            _ => 0,
        }
    }

    /// Whether the index, which there must be, is automasked.
    fn automasked(&self) -> bool {
        INDICES[self.index as usize].1 & AUTOMASKED != 0
    }

    /// The checks behind 2 to 4, in their order.
    fn check(&self) -> Answer<()> {
        let kinds = [NONE, BOOL, EVENT];
        let actions = [MASK, UNMASK, TRIGGER];
        refuse_if(
            !kinds.contains(&self.kind) || !actions.contains(&self.action),
            Refusal::Flags,
        )?;
        refuse_if(self.kind == EVENT && self.action != TRIGGER, Refusal::Flags)?;
        let index = INDICES.get(self.index as usize);
        let (lines, flags) = *index.ok_or(Refusal::Index)?;
        refuse_if(
            self.action != TRIGGER && flags & MASKABLE == 0,
            Refusal::Flags,
        )?;
        // Of 4 bytes each, so that no sum or product below wraps.
        refuse_if(self.start + self.count > lines, Refusal::Range)?;
        refuse_if(self.count == 0 && !self.disables(), Refusal::Empty)?;
        let needed = DATA + self.count * self.width();
        refuse_if(self.argsz < needed, Refusal::ArgSize)?;
        refuse_if(
            self.kind == EVENT && self.events().any(|number| number < UNASSIGNED),
            Refusal::Value,
        )
    }

    /// The event numbers, which are signed.
    fn events(&self) -> impl Iterator<Item = i64> + '_ {
        (0..self.count).map(|i| {
            let number = number_at(self.data, 4 * i as usize, 4) as i64;
            if number < 1 << 31 {
                number
            } else {
                number - (1 << 32)
            }
        })
    }

    /// Any byte but 0 selects its line; without bytes all are selected.
    fn selects(&self, offset: usize) -> bool {
        self.kind != BOOL || self.data[offset] != 0
    }
}

/// Request 110. All is judged before anything is stored.
pub fn set_lines(state: &mut State, buffer: &[u8]) -> Answer<u64> {
    let asked = Asked::read(buffer);
    asked.check()?;
    let lines = &mut state.lines[asked.index as usize];
    if asked.disables() {
        lines.fill(Line::disabled());
        return Ok(0);
    }
    let first = asked.start as usize;
    let range = &mut lines[first..first + asked.count as usize];
    if asked.kind == EVENT {
        for (line, number) in range.iter_mut().zip(asked.events()) {
            *line = Line::stored(number);
        }
        return Ok(0);
    }
    for (offset, line) in range.iter_mut().enumerate() {
        if asked.selects(offset) {
            line.act(asked.action, asked.automasked());
        }
    }
    Ok(0)
}

/// Shows a line.
pub fn show_line(state: &State, index: u64, line: u64) -> Answer<Line> {
    state.check_sound()?;
    let lines = INDICES.get(index as usize).map_or(0, |(count, _)| *count);
    refuse_if(line >= lines, Refusal::Index)?;
    Ok(state.lines[index as usize][line as usize])
}

#[cfg(test)]
mod tests {
    use super::*;
    use crate::bytes::put_number;
    use crate::parts::{load_parts, save_parts};
    use crate::registers::set_register;
    use crate::requests::{request, DEVICE};

    const EVENTFD: u64 = EVENT | TRIGGER;

    fn refused(refusal: Refusal) -> Answer<u64> {
        Err(refusal.into())
    }

    fn line(number: i64, masked: u8, pending: u8, tally: u64) -> Line {
        Line {
            number,
            masked,
            pending,
            tally,
        }
    }

    fn events(numbers: &[i32]) -> Vec<u8> {
        numbers.iter().flat_map(|n| n.to_le_bytes()).collect()
    }

    /// The request with an argsz and these fields: flags, index, start, count.
    fn ask(state: &mut State, argsz: usize, fields: [u64; 4], data: &[u8]) -> Answer<u64> {
        let mut buffer = vec![0; 20];
        put_number(&mut buffer, 0, 4, argsz as u64);
        for (i, number) in fields.into_iter().enumerate() {
            put_number(&mut buffer, 4 + 4 * i, 4, number);
        }
        buffer.extend(data);
        let before = buffer.clone();
        let answer = request(state, &[], &[], DEVICE, 110, &mut buffer);
        assert_eq!(buffer, before, "it has no output");
        answer
    }

    fn set(state: &mut State, fields: [u64; 4], data: &[u8]) -> Answer<u64> {
        ask(state, 20 + data.len(), fields, data)
    }

    /// A state whose first line of an index is this one.
    fn with(index: usize, first: Line) -> State {
        let mut state = State::fresh(0);
        state.lines[index][0] = first;
        state
    }

    /// Rule 3.28, row by row: what is done, on an index that is automasked and on one that is not; the
    /// line before and after.
    #[test]
    fn what_is_done_to_a_line() {
        let cases = [
            (TRIGGER, 0, line(-1, 1, 1, 7), line(-1, 1, 1, 7)),
            (TRIGGER, 0, line(5, 0, 0, 7), line(5, 1, 0, 8)),
            (TRIGGER, 1, line(5, 0, 0, 7), line(5, 0, 0, 8)),
            (TRIGGER, 0, line(5, 1, 0, 7), line(5, 1, 1, 7)),
            (TRIGGER, 1, line(5, 1, 1, 7), line(5, 1, 1, 7)),
            (TRIGGER, 1, line(5, 0, 1, 7), line(5, 0, 1, 8)),
            (TRIGGER, 1, line(0, 9, 2, 7), line(0, 9, 2, 8)),
            (TRIGGER, 0, line(0, 0, 0, TALLIES - 1), line(0, 1, 0, 0)),
            (MASK, 0, line(-1, 0, 0, 7), line(-1, 0, 0, 7)),
            (MASK, 0, line(5, 0, 0, 7), line(5, 1, 0, 7)),
            (MASK, 0, line(5, 1, 1, 7), line(5, 1, 1, 7)),
            (UNMASK, 0, line(-1, 1, 1, 7), line(-1, 1, 1, 7)),
            (UNMASK, 0, line(5, 0, 0, 7), line(5, 0, 0, 7)),
            (UNMASK, 0, line(5, 0, 1, 7), line(5, 1, 0, 8)),
            (UNMASK, 0, line(5, 1, 0, 7), line(5, 0, 0, 7)),
            (UNMASK, 0, line(5, 1, 1, 7), line(5, 1, 0, 8)),
            (UNMASK, 0, line(5, 3, 4, 7), line(5, 0, 4, 7)),
        ];
        for (action, index, before, after) in cases {
            let mut state = with(index, before);
            let fields = [NONE | action, index as u64, 0, 1];
            assert_eq!(set(&mut state, fields, &[]), Ok(0), "{before:?}");
            assert_eq!(state, with(index, after), "{action} on {before:?}");
        }
    }

    /// Rule 3.28: storing clears all else, also where -1 is stored over -1.
    #[test]
    fn storing_a_number_clears_all_else() {
        for before in [line(-1, 1, 1, 7), line(5, 0, 1, 7), line(5, 1, 0, 7)] {
            for number in [-1, 0, 5, i32::MAX] {
                let mut state = with(2, before);
                let data = events(&[number]);
                assert_eq!(set(&mut state, [EVENTFD, 2, 0, 1], &data), Ok(0));
                assert_eq!(state, with(2, line(number.into(), 0, 0, 0)));
            }
        }
    }

    /// Rule 3.26: each check by itself, and before the next ones.
    #[test]
    fn the_checks_run_in_the_rules_order() {
        let far = u64::from(u32::MAX);
        let cases = [
            // No such flags, with an index that there is not.
            ([0, 9, far, 0], Refusal::Flags),
            ([NONE, 9, far, 0], Refusal::Flags),
            ([TRIGGER, 9, far, 0], Refusal::Flags),
            ([NONE | BOOL | TRIGGER, 9, far, 0], Refusal::Flags),
            ([NONE | MASK | UNMASK, 9, far, 0], Refusal::Flags),
            ([NONE | TRIGGER | 64, 9, far, 0], Refusal::Flags),
            ([EVENT | MASK, 9, far, 0], Refusal::Flags),
            ([EVENT | UNMASK, 0, 0, 1], Refusal::Flags),
            ([NONE | MASK, 9, far, 0], Refusal::Index),
            ([NONE | TRIGGER, 4, far, far], Refusal::Index),
            ([NONE | MASK, 1, 99, 0], Refusal::Flags),
            ([BOOL | UNMASK, 3, 99, 0], Refusal::Flags),
            ([NONE | TRIGGER, 1, 9, 0], Refusal::Range),
            ([BOOL | TRIGGER, 1, 9, 0], Refusal::Range),
            ([EVENTFD, 1, 1, 8], Refusal::Range),
            ([EVENTFD, 1, far, 2], Refusal::Range),
            ([EVENTFD, 1, 2, far], Refusal::Range),
            ([NONE | TRIGGER, 3, 0, 1], Refusal::Range),
            ([BOOL | TRIGGER, 1, 8, 0], Refusal::Empty),
            ([EVENTFD, 3, 0, 0], Refusal::Empty),
            ([NONE | MASK, 0, 0, 0], Refusal::Empty),
            ([EVENTFD, 1, 0, 8], Refusal::ArgSize),
            ([BOOL | TRIGGER, 1, 0, 8], Refusal::ArgSize),
            ([EVENTFD, 1, 0, 1], Refusal::Value),
        ];
        for (fields, refusal) in cases {
            let mut state = with(1, line(5, 1, 1, 7));
            let data = events(&[-2]);
            let answer = set(&mut state, fields, &data);
            assert_eq!(answer, refused(refusal), "{fields:?}");
            assert_eq!(state, with(1, line(5, 1, 1, 7)));
        }
    }

    /// Rule 3.27: argsz decides, not the buffer's length.
    #[test]
    fn data_past_argsz_are_no_data() {
        let mut state = State::fresh(0);
        let data = events(&[5, 6]);
        for argsz in [19, 20, 24, 27, 29] {
            let answer = ask(&mut state, argsz, [EVENTFD, 1, 0, 2], &data);
            assert_eq!(answer, refused(Refusal::ArgSize), "{argsz}");
        }
        assert_eq!(ask(&mut state, 28, [EVENTFD, 1, 0, 2], &data), Ok(0));
        assert_eq!(ask(&mut state, 20, [NONE | TRIGGER, 1, 0, 2], &data), Ok(0));
        let tallies: Vec<u64> = state.lines[1].iter().map(|line| line.tally).collect();
        assert_eq!(tallies, [1, 1, 0, 0, 0, 0, 0, 0]);
    }

    /// Rule 3.26: a refusal leaves the lines before the refused number.
    #[test]
    fn no_number_is_stored_before_all_are_judged() {
        for number in [-2, i32::MIN] {
            let mut state = State::fresh(0);
            let data = events(&[5, -1, number]);
            let answer = set(&mut state, [EVENTFD, 2, 4, 3], &data);
            assert_eq!(answer, refused(Refusal::Value));
            assert_eq!(state, State::fresh(0));
        }
        let mut state = State::fresh(0);
        // A number behind those that count is no number.
        let data = events(&[5, -1, -2]);
        assert_eq!(set(&mut state, [EVENTFD, 2, 4, 2], &data), Ok(0));
        assert_eq!(state.lines[2][4], Line::stored(5));
    }

    /// Rule 3.27: any byte but 0, each its line; others stay.
    #[test]
    fn bytes_other_than_0_select_their_lines() {
        let mut state = State::fresh(0);
        let data = events(&[0, 1, 2, 3]);
        assert_eq!(set(&mut state, [EVENTFD, 1, 2, 4], &data), Ok(0));
        let bytes = [2, 0, 255, 1];
        assert_eq!(set(&mut state, [BOOL | TRIGGER, 1, 2, 4], &bytes), Ok(0));
        let tallies: Vec<u64> = state.lines[1].iter().map(|line| line.tally).collect();
        assert_eq!(tallies, [0, 0, 1, 0, 1, 1, 0, 0]);
    }

    /// Rules 3.29 and 7.36: the whole index, wherever start is.
    #[test]
    fn none_with_trigger_and_count_0_disables_an_index() {
        for start in [0, 3, 8] {
            let mut state = State::fresh(0);
            state.lines[1].fill(line(5, 1, 1, 7));
            state.lines[2][0] = line(5, 1, 1, 7);
            let fields = [NONE | TRIGGER, 1, start, 0];
            assert_eq!(set(&mut state, fields, &[]), Ok(0));
            assert_eq!(state, with(2, line(5, 1, 1, 7)));
        }
        let mut state = State::fresh(0);
        assert_eq!(set(&mut state, [NONE | TRIGGER, 3, 0, 0], &[]), Ok(0));
        assert_eq!(state, State::fresh(0));
    }

    /// Rules 3.16 and 3.29: reset disables all; loading and setting the status do not.
    #[test]
    fn a_reset_disables_all_lines_and_loading_none() {
        let mut state = State::fresh(0);
        state
            .lines
            .iter_mut()
            .flatten()
            .for_each(|l| *l = line(5, 1, 1, 7));
        let before = state.lines.clone();
        let mut stream = [0; 41];
        assert_eq!(save_parts(&state, &mut stream), Ok(41));
        assert_eq!(load_parts(&mut state, &stream), Ok(0));
        assert_eq!(set_register(&mut state, 0x103, 0, &[0]), Ok(0));
        assert_eq!(state.lines, before);
        let answer = request(&mut state, &[], &[], DEVICE, 111, &mut []);
        assert_eq!(answer, Ok(0));
        assert_eq!(state, State::fresh(0));
    }

    /// Rule 1.20: a number below -1 is not sound, and nothing else is wrong of a line.
    #[test]
    fn only_a_number_below_minus_1_is_not_sound() {
        for number in [-2, i64::from(i32::MIN)] {
            for (index, last) in [(0, 0), (1, 7), (2, 15)] {
                let mut state = State::fresh(0);
                state.lines[index][last].number = number;
                assert!(!state.sound(), "{number} at {index}");
                assert_eq!(show_line(&state, 0, 0), Err(Refusal::BadBench.into()));
            }
        }
        for number in [-1, 0, 5, i64::from(i32::MAX)] {
            for flag in [0, 1, 2, 255] {
                let mut state = State::fresh(0);
                let any = line(number, flag, 255 - flag, TALLIES - 1);
                state.lines.iter_mut().flatten().for_each(|l| *l = any);
                assert!(state.sound());
                assert_eq!(show_line(&state, 2, 15), Ok(any));
            }
        }
    }

    /// Rule 4.14: the lines that there are, and no others.
    #[test]
    fn lines_that_there_are_are_shown() {
        let state = with(1, line(5, 1, 0, 7));
        assert_eq!(show_line(&state, 1, 0), Ok(line(5, 1, 0, 7)));
        for (index, line) in [(0, 0), (1, 7), (2, 15)] {
            assert_eq!(show_line(&state, index, line), Ok(Line::disabled()));
        }
        let none = [(0, 1), (1, 8), (2, 16), (3, 0), (4, 0), (u64::MAX, 0)];
        for (index, line) in none {
            let answer = show_line(&state, index, line);
            assert_eq!(answer, Err(Refusal::Index.into()), "{index}");
        }
    }
}
