//! One stream alone, for a product whose host is another stack: it has a BIGInfo and PDUs by payload number, and wants units.
use crate::raw::{self, Handle, NONE};
use crate::{done, waiting, BigInfo, Heard, Refusal, Stay, Unit};

owned!(
    /// The receiver of one stream.
    Stream,
    vm_stream_drop
);

impl Stream {
    /// A receiver that heard nothing yet. `Err` has the row at fault beside `Refusal::Group`, and else 0.
    pub fn new(info: &BigInfo, stay: &Stay) -> Result<Stream, (Refusal, u8)> {
        let (mut handle, mut row) = (NONE, 0);
        done(unsafe { raw::vm_stream_new(&mut handle, info, stay, &mut row) }).map_err(|it| (it, row))?;
        Ok(Stream { handle })
    }

    /// A PDU under its payload number. It takes no memory.
    pub fn hear(&mut self, number: u64, pdu: &[u8]) -> Heard {
        let mut heard = Heard::default();
        unsafe { raw::vm_stream_hear(&mut self.handle, number, pdu.as_ptr(), pdu.len() as u64, &mut heard) }
        heard
    }

    /// Room for so many units, 1 to 1,024, of so many octets each, 1 to 4,095: from then on `close` takes no memory while no more wait.
    pub fn reserve(&mut self, units: usize, octets: usize) -> Result<(), Refusal> {
        done(unsafe { raw::vm_stream_reserve(&mut self.handle, units as u64, octets as u64) })
    }

    /// The open event is over: its units wait. After `Refusal::Memory` it is over too, and a prefix of the units waits.
    pub fn close(&mut self) -> Result<(), Refusal> {
        done(unsafe { raw::vm_stream_close(&mut self.handle) })
    }

    /// The open event.
    pub fn open_event(&mut self) -> u64 {
        let mut event = 0;
        unsafe { raw::vm_stream_open_event(&mut self.handle, &mut event) }
        event
    }

    /// The octets that it holds of units that it hasn't handed up: of an unframed stream those of the longest prefix of each unit of the
    /// open event, of a framed one those of the unit that the closed events don't decide. Units that wait for `next_unit` don't count.
    pub fn held(&mut self) -> usize {
        let mut octets = 0;
        unsafe { raw::vm_stream_held(&mut self.handle, &mut octets) }
        octets as usize
    }

    /// The first unit that waits; a room of 4,095 octets is always enough.
    pub fn next_unit<'a>(&mut self, room: &'a mut [u8]) -> Result<Option<Unit<'a>>, Refusal> {
        let mut it = raw::Unit::default();
        let status = unsafe { raw::vm_stream_next_unit(&mut self.handle, room.as_mut_ptr(), room.len() as u64, &mut it) };
        waiting(status, || Unit::of(&it, room))
    }
}
