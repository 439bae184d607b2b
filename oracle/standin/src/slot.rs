//! The slot for a file that a list has, and the calls of kinds 105 to 108.

use crate::calls::Answer;
use crate::faults::Fault;
use crate::state::{State, Words};

const ROOM: usize = 16384;

pub struct Slot {
    bytes: Vec<u8>,
    length: usize,
}

impl Slot {
    pub fn new() -> Self {
        Slot { bytes: vec![0; ROOM], length: 0 }
    }

    pub fn file(&self) -> &[u8] {
        &self.bytes[..self.length]
    }

    /// The length and both halves of the Adler-32 checksum, the lower one first.
    fn answer(&self) -> Answer {
        let (mut low, mut high) = (1, 0);
        for &byte in self.file() {
            low = (low + u32::from(byte)) % 65521;
            high = (high + low) % 65521;
        }
        Answer::File([self.length, low as usize, high as usize])
    }

    fn change(&mut self, w: &Words) {
        self.length -= self.length.min(w[4].into());
        let longer = ROOM.min(self.length + usize::from(w[5]));
        self.bytes[self.length..longer].fill(0);
        self.length = longer;
        if usize::from(w[2]) < self.length {
            self.bytes[usize::from(w[2])] = (w[3] % 256) as u8;
        }
    }
}

impl State {
    /// The call of a record of kinds 105 to 108.
    pub fn file_call(&mut self, slot: &mut Slot, w: &Words) -> Answer {
        match w[1] {
            105 => self.store_into(slot, usize::from(w[2]).min(ROOM)),
            106 => {
                slot.change(w);
                slot.answer()
            }
            107 => match self.load(slot.file()) {
                Ok(loaded) => {
                    *self = loaded;
                    Answer::Said(true)
                }
                Err(number) => {
                    self.leave_refused_load(slot.file());
                    Answer::Refused(number)
                }
            },
            _ => {
                *self = State::new(self.fault);
                Answer::Said(true)
            }
        }
    }

    fn store_into(&mut self, slot: &mut Slot, room: usize) -> Answer {
        let mut file = self.store();
        let fits = match self.fault {
            Some(Fault::RoomForOneMore) => file.len() < room,
            Some(Fault::RoomForOneLess) => file.len() <= room + 1,
            Some(Fault::AnyRoom) => true,
            _ => file.len() <= room,
        };
        if !fits {
            match self.fault {
                Some(Fault::ShortRoomFilled) => slot.bytes[..room].copy_from_slice(&file[..room]),
                Some(Fault::ShortRoomForgets) => slot.length = 0,
                Some(Fault::ShortRoomIsThirteen) => return Answer::Refused(13),
                _ => {}
            }
            return Answer::Refused(9);
        }
        file.truncate(ROOM);
        slot.bytes[..file.len()].copy_from_slice(&file);
        slot.length = file.len();
        if self.is(Fault::StoreShortens) {
            self.links = self.roots(&self.links);
        }
        if self.is(Fault::StoreUnsettles) {
            self.settled = false;
        }
        slot.answer()
    }
}
