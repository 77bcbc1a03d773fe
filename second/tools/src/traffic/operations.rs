//! A list of operations for traffic, built up one by one, and the command that carries it.

use port::table::{find, LIST_LENGTH, TABLE};
use port::{Profile, RELEASE_18};

/// The type of a command.
pub const COMMAND: u8 = 0x01;
/// Octets of a command before its operations: its type, L.
pub const BEFORE_LIST: usize = 3;
/// Octets of a set before its value, and of what is laid out as one: its code, name, length.
pub const BEFORE_VALUE: usize = 5;
/// The code of a set.
pub const SET: u8 = 3;

/// A list of operations under construction.
pub struct Operations {
    list: Vec<u8>,
    /// The profile of the controller that sends it.
    pub by: &'static Profile,
}

impl Default for Operations {
    fn default() -> Operations {
        Operations::by(&RELEASE_18)
    }
}

impl Operations {
    /// A list of no operations, of a controller of this profile.
    pub fn by(controller: &'static Profile) -> Operations {
        Operations {
            list: Vec::new(),
            by: controller,
        }
    }

    /// A list of any octets.
    pub fn of(list: &[u8]) -> Operations {
        Operations {
            list: list.to_vec(),
            ..Operations::default()
        }
    }

    /// Adds a get capabilities.
    pub fn get_capabilities(&mut self) {
        self.list.push(1);
    }

    /// Adds a read.
    pub fn read(&mut self, name: u16) {
        self.named(2, name);
    }

    /// Adds a set. What memory would keep is told as the controller's release has it.
    pub fn set(&mut self, name: u16, value: &[u8]) {
        let told = match find(name) {
            Some(LIST_LENGTH) if value.len() == TABLE[LIST_LENGTH].most => {
                self.by.told(LIST_LENGTH, value)
            }
            _ => value,
        };
        self.valued(SET, name, told);
    }

    /// Adds an operation of any code that is laid out as a set.
    pub fn valued(&mut self, code: u8, name: u16, value: &[u8]) {
        self.valued_telling(code, name, value.len(), value);
    }

    /// Adds such an operation that tells another length of its value.
    pub fn valued_telling(&mut self, code: u8, name: u16, length: usize, value: &[u8]) {
        self.named(code, name);
        self.list.extend((length as u16).to_be_bytes());
        self.list.extend(value);
    }

    /// Adds a subscribe.
    pub fn subscribe(&mut self, name: u16) {
        self.named(4, name);
    }

    /// Adds an unsubscribe.
    pub fn unsubscribe(&mut self, name: u16) {
        self.named(5, name);
    }

    /// The command that carries the list.
    pub fn command(&self) -> Vec<u8> {
        self.command_telling(self.list.len())
    }

    /// The command that carries the list and tells another length of it.
    pub fn command_telling(&self, length: usize) -> Vec<u8> {
        let mut message = vec![COMMAND];
        message.extend((length as u16).to_be_bytes());
        message.extend(&self.list);
        message
    }

    /// The list itself.
    pub fn list(self) -> Vec<u8> {
        self.list
    }

    /// Octets of the list.
    pub fn length(&self) -> usize {
        self.list.len()
    }

    /// Cuts the list to so many octets.
    pub fn truncate(&mut self, length: usize) {
        self.list.truncate(length);
    }

    /// Adds an operation that is a code and a name.
    pub fn named(&mut self, code: u8, name: u16) {
        self.list.push(code);
        self.list.extend(name.to_be_bytes());
    }
}
