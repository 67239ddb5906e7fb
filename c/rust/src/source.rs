//! A source that sends.
use crate::raw::{self, Handle, NONE};
use crate::{done, front, BigInfo, Fault, Identity, Refusal, Train};

owned!(
    /// A source that sends.
    Source,
    vm_source_drop
);

impl Source {
    /// A source of a group, whose first event has its anchor at `origin`, in µs. `Err` has the fault of the BASE or the row of the group.
    pub fn new(
        identity: &Identity, info: &BigInfo, base: &[u8], origin: u64, first_event: u64, times_ahead: bool,
    ) -> Result<Source, (Refusal, Fault)> {
        let (mut handle, mut fault) = (NONE, Fault::default());
        done(unsafe {
            raw::vm_source_new(&mut handle, identity, info, base.as_ptr(), base.len() as u64, origin, first_event, times_ahead, &mut fault)
        })
        .map_err(|it| (it, fault))?;
        Ok(Source { handle })
    }

    /// A unit of a stream; of a framed group with its time in µs.
    pub fn give(&mut self, bis: u8, time: Option<u64>, unit: &[u8]) -> Result<(), Refusal> {
        done(unsafe {
            raw::vm_source_give(&mut self.handle, bis, time.is_some(), time.unwrap_or(0), unit.as_ptr(), unit.len() as u64)
        })
    }

    /// The next event and its anchor in µs.
    pub fn next(&mut self) -> (u64, u64) {
        let (mut event, mut anchor) = (0, 0);
        unsafe { raw::vm_source_next(&mut self.handle, &mut event, &mut anchor) }
        (event, anchor)
    }

    /// Performs the next event. After `Refusal::Memory` the source has failed.
    pub fn event(&mut self) -> Result<(), Refusal> {
        done(unsafe { raw::vm_source_event(&mut self.handle) })
    }

    /// The stream and the time of the first unit that the last event left out.
    pub fn next_stale(&mut self) -> Option<(u8, u64)> {
        let (mut bis, mut time) = (0, 0);
        let status = unsafe { raw::vm_source_next_stale(&mut self.handle, &mut bis, &mut time) };
        (status == 0).then_some((bis, time))
    }

    /// The PDU in a subevent of the event that came so many before the last, and its payload number; a room of 253 octets is always enough.
    pub fn pdu<'a>(&mut self, back: u8, bis: u8, subevent: u8, room: &'a mut [u8]) -> Result<(&'a [u8], u64), Refusal> {
        let (mut count, mut number) = (0, 0);
        done(unsafe {
            raw::vm_source_pdu(&mut self.handle, back, bis, subevent, room.as_mut_ptr(), room.len() as u64, &mut count, &mut number)
        })?;
        Ok((front(room, count), number))
    }

    /// Announces the next event, in a room of 512 octets.
    pub fn announce(&mut self, room: &mut [u8]) -> Result<Train, Refusal> {
        let mut train = Train::default();
        done(unsafe { raw::vm_source_announce(&mut self.handle, room.as_mut_ptr(), room.len() as u64, &mut train) })?;
        Ok(train)
    }

    /// The control PDU that ends the group for this reason at the next event.
    pub fn terminate(&mut self, reason: u8) -> [u8; 6] {
        let mut pdu = [0; 6];
        unsafe { raw::vm_source_terminate(&mut self.handle, reason, pdu.as_mut_ptr()) }
        pdu
    }
}
