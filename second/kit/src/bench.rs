//! A bench that watches every lent octet: what a call may not touch, it has not touched.

use port::{Answer, Gates};

use crate::messages::command;

/// What rooms hold before a call.
pub const FILL: u8 = 0xA5;
/// A room that every reply fits.
pub const AMPLE: usize = 4_096;

/// The profile of fresh memory, where a test names none.
const USUAL: u8 = 2;

/// One port's memory, with a watch on what each call may change.
#[derive(Clone)]
pub struct Bench {
    /// The first octet of what is lent, if anything is.
    pub first: Option<u8>,
    /// The octets behind it, at the places of section 3 of the rules.
    pub memory: Vec<u8>,
}

impl Bench {
    /// Fresh memory, of profile 02.
    pub fn fresh() -> Bench {
        Bench::fresh_of(USUAL)
    }

    /// Fresh memory of a profile.
    pub fn fresh_of(profile: u8) -> Bench {
        let mut bench = Bench::of(vec![0xEE; 2_100]);
        assert_eq!(bench.make_fresh_of(profile), 0);
        bench
    }

    /// Any memory, in form B if it has 2,100 octets, and of profile 02.
    pub fn of(memory: Vec<u8>) -> Bench {
        let first = Some(USUAL);
        Bench { first, memory }
    }

    /// The same memory with the first octet of a profile, be it sound there or not.
    pub fn with_profile(&self, profile: u8) -> Bench {
        let first = Some(profile);
        Bench {
            first,
            ..self.clone()
        }
    }

    /// Any octets that are lent as memory.
    pub fn lend(lent: &[u8]) -> Bench {
        let first = lent.first().copied();
        let memory = lent.get(1..).unwrap_or_default().to_vec();
        Bench { first, memory }
    }

    /// All that is lent, the first octet and those behind it.
    pub fn lent(&self) -> Vec<u8> {
        self.first.into_iter().chain(self.memory.clone()).collect()
    }

    /// The call that makes memory fresh, for profile 02.
    pub fn make_fresh(&mut self) -> u8 {
        self.make_fresh_of(USUAL)
    }

    /// The call that makes memory fresh. It alone writes the first octet.
    pub fn make_fresh_of(&mut self, profile: u8) -> u8 {
        let before = self.lent();
        let mut lent = before.clone();
        let answer = port::make_fresh(&mut lent, profile);
        let number = answer.number as u8;
        *self = Bench::lend(&lent);
        assert_eq!([answer.length, answer.position], [0, 0]);
        assert!(number != 0 || self.first == Some(profile));
        assert!(number == 0 || lent == before, "memory changed by a refusal");
        number
    }

    /// A message with an ample room.
    pub fn send(&mut self, message: &[u8]) -> (u8, Vec<u8>) {
        self.send_into(message, AMPLE)
    }

    /// A message with a room of the given length.
    pub fn send_into(&mut self, message: &[u8], room: usize) -> (u8, Vec<u8>) {
        self.watched(room, |memory, room| {
            port::take_message(memory, message, room)
        })
    }

    /// A message with an ample room; its number and its position.
    pub fn position(&mut self, message: &[u8]) -> (u8, usize) {
        let call = |memory: &mut [u8], room: &mut [u8]| port::take_message(memory, message, room);
        let (answer, _) = self.answered(AMPLE, call);
        (answer.number as u8, answer.position)
    }

    /// Operations that have to be carried out; their reply.
    pub fn done(&mut self, operations: &[u8]) -> Vec<u8> {
        let (number, reply) = self.send(&command(operations));
        assert_eq!(number, 0, "operations {operations:02x?}");
        reply
    }

    /// A local value.
    pub fn local(&mut self, name: u16, value: &[u8]) -> u8 {
        self.watched(0, |memory, _| port::take_local_value(memory, name, value))
            .0
    }

    /// A notification in an ample room.
    pub fn build(&mut self) -> (u8, Vec<u8>) {
        self.build_into(AMPLE)
    }

    /// A notification in a room of the given length.
    pub fn build_into(&mut self, room: usize) -> (u8, Vec<u8>) {
        self.watched(room, port::build_notification)
    }

    /// An expiry.
    pub fn expire(&mut self) -> u8 {
        self.watched(0, |memory, _| port::take_expiry(memory)).0
    }

    /// What is told of the gates at an instant: the number, and with it, where an entry is told, its
    /// states, its number and the nanoseconds. Asked twice, the answer is the same.
    pub fn gates(&self, instant: i64) -> (u8, Option<(u8, usize, u64)>) {
        let lent = self.lent();
        let before = lent.clone();
        let gates = port::gates(&lent, instant);
        assert_eq!(gates, port::gates(&lent, instant));
        assert!(lent == before, "memory changed at instant {instant}");
        let told = match gates {
            Gates::Refused(_) | Gates::NotStarted => None,
            Gates::Open {
                states,
                entry,
                nanoseconds,
            } => Some((states, entry, nanoseconds.0)),
        };
        (gates.number() as u8, told)
    }

    /// A move forward into a room of the given length: what is lent is in the old form, all of it.
    pub fn forward(&self, room: usize) -> (u8, Vec<u8>) {
        self.moved(room, port::move_forward)
    }

    /// A move back into a room of the given length.
    pub fn back(&self, room: usize) -> (u8, Vec<u8>) {
        self.moved(room, port::move_back)
    }

    /// Makes a move twice, which changes nothing that is lent; its number and what it has written, which
    /// fills the room if anything (RULES 23.10 and 23.11).
    fn moved(&self, room: usize, call: fn(&[u8], &mut [u8]) -> Answer) -> (u8, Vec<u8>) {
        let [moved, again] = [(); 2].map(|()| {
            let mut bench = self.clone();
            let moved = bench.watched(room, |memory, room| call(memory, room));
            assert!(bench.lent() == self.lent(), "memory changed by a move");
            moved
        });
        assert!(moved == again, "two moves that differ");
        let (number, written) = &moved;
        assert_eq!(written.len(), if *number == 0 { room } else { 0 });
        moved
    }

    /// Whether the endpoint finds the memory sound; only number 1 tells, and it changes nothing.
    pub fn is_sound(&self) -> bool {
        self.clone().send(&[]).0 == 2
    }

    /// Makes a call and checks what it may not touch; its number and what it has written.
    fn watched(
        &mut self,
        room: usize,
        call: impl FnOnce(&mut [u8], &mut [u8]) -> Answer,
    ) -> (u8, Vec<u8>) {
        let (answer, written) = self.answered(room, call);
        (answer.number as u8, written)
    }

    /// Makes a call and checks what it may not touch, and that only number 6 has a position.
    fn answered(
        &mut self,
        room: usize,
        call: impl FnOnce(&mut [u8], &mut [u8]) -> Answer,
    ) -> (Answer, Vec<u8>) {
        let mut room = vec![FILL; room];
        let before = self.lent();
        let mut lent = before.clone();
        let answer = call(&mut lent, &mut room);
        let number = answer.number as u8;
        *self = Bench::lend(&lent);
        assert_eq!(number == 6, answer.position != 0, "{answer:?}");
        match number {
            // Making fresh alone writes the first octet (RULES 23.4).
            0 => assert_eq!(lent.first(), before.first()),
            20 | 21 => {
                assert_eq!(answer.length, 0);
                let (first, memory) = before.split_first().unwrap();
                let cells = if number == 20 {
                    memory[..114].to_vec()
                } else {
                    turned_back(&memory[..114])
                };
                assert_eq!(self.first, Some(*first));
                assert_eq!(self.memory[..114], cells);
                assert_eq!(self.memory[116..], memory[116..]);
            }
            _ => {
                assert_eq!(answer.length, 0);
                assert!(lent == before, "memory changed with number {number}");
            }
        }
        let (written, rest) = room.split_at(answer.length);
        assert!(
            rest.iter().all(|octet| *octet == FILL),
            "room changed past the reply"
        );
        (answer, written.to_vec())
    }
}

/// Cells in which what was in flight is pending (RULES 14.10).
fn turned_back(cells: &[u8]) -> Vec<u8> {
    let mut cells = cells.to_vec();
    for flags in cells.iter_mut().skip(2).step_by(6) {
        if *flags & 8 == 8 {
            *flags = (*flags - 8) | 4;
        }
    }
    cells
}
