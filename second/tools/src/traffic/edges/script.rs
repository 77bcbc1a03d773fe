//! A script that is put together by hand: its instructions, and what a rig makes of them.

use std::io::{self, Sink};

use port::{Profile, RELEASE_18};
use programs::rig::{code, Rig};
use programs::stream::Lines;

use crate::traffic::forms::{behind, form_b_of};
use crate::traffic::operations::Operations;
use crate::traffic::pieces;

/// A room that is large enough for every reply.
pub const AMPLE: u16 = 4_096;

/// The script so far, and a rig that has played it.
pub struct Edges {
    pub script: Vec<Vec<u8>>,
    pub rig: Rig<Sink>,
}

impl Edges {
    pub fn new() -> Edges {
        Edges {
            script: Vec::new(),
            rig: Rig::new(Lines::new(io::sink())),
        }
    }

    pub fn instruction(&mut self, code: u8, body: &[u8]) {
        self.script.push(pieces::instruction(code, body));
        // A rig that writes to a sink cannot fail.
        let _ = self.rig.instruction(code, body);
    }

    pub fn fresh(&mut self) {
        self.instruction(code::MAKE_FRESH, &[]);
    }

    /// Memory made fresh for the profile of an octet, if there is one.
    pub fn fresh_of(&mut self, octet: u8) {
        self.instruction(code::MAKE_FRESH, &[octet]);
    }

    pub fn message(&mut self, room: u16, message: &[u8]) {
        self.send(code::MESSAGE, room, message);
    }

    /// A message whose line has its position.
    pub fn message_in_full(&mut self, room: u16, message: &[u8]) {
        self.send(code::MESSAGE_IN_FULL, room, message);
    }

    /// A command of the operations that `add` adds, in an ample room.
    pub fn command(&mut self, add: impl FnOnce(&mut Operations)) {
        self.command_into(AMPLE, add);
    }

    pub fn command_into(&mut self, room: u16, add: impl FnOnce(&mut Operations)) {
        let mut operations = Operations::default();
        add(&mut operations);
        self.message(room, &operations.command());
    }

    pub fn local(&mut self, name: u16, value: &[u8]) {
        let body = [&name.to_be_bytes(), value].concat();
        self.instruction(code::LOCAL_VALUE, &body);
    }

    pub fn build(&mut self) {
        self.build_into(AMPLE);
    }

    pub fn build_into(&mut self, room: u16) {
        self.instruction(code::BUILD, &room.to_be_bytes());
    }

    pub fn expiry(&mut self) {
        self.instruction(code::EXPIRY, &[]);
    }

    pub fn acknowledge(&mut self) {
        self.message(AMPLE, &[4]);
    }

    /// The memory that is lent, behind the first octet.
    pub fn memory(&self) -> Vec<u8> {
        behind(&self.rig.memory).to_vec()
    }

    /// Memory that is lent in form B, and whether it is sound: an expiry tells, and gates do, and a move
    /// back, to which no room is lent.
    pub fn lend(&mut self, memory: &[u8]) {
        self.lend_of(&RELEASE_18, memory);
    }

    /// The same of any profile.
    pub fn lend_of(&mut self, profile: &Profile, memory: &[u8]) {
        self.lend_octets(&form_b_of(profile, memory));
        self.asked();
    }

    /// Whether what is lent is sound: each of these calls returns 1 where it is not.
    pub fn asked(&mut self) {
        self.expiry();
        self.instruction(code::GATES, &[0; 8]);
        self.back(0);
    }

    /// Any octets that are lent as memory.
    pub fn lend_octets(&mut self, lent: &[u8]) {
        self.instruction(code::LEND, lent);
    }

    pub fn forward(&mut self, room: usize) {
        self.instruction(code::FORWARD, &(room as u16).to_be_bytes());
    }

    pub fn back(&mut self, room: usize) {
        self.instruction(code::BACK, &(room as u16).to_be_bytes());
    }

    pub fn show(&mut self) {
        self.instruction(code::SHOW_MEMORY, &[]);
    }

    pub fn show_room(&mut self) {
        self.instruction(code::SHOW_ROOM, &[]);
    }

    fn send(&mut self, code: u8, room: u16, message: &[u8]) {
        let body = [&room.to_be_bytes(), message].concat();
        self.instruction(code, &body);
    }
}
