//! A sink: a Scan Delegator with a receiver for each stream that it takes.
use crate::raw::{self, Handle, NONE};
use crate::{done, front, waiting, BigInfo, Heard, Refusal, Reply, TrainHeard, Unit};

owned!(
    /// A Scan Delegator with a receiver for each stream that it takes.
    Sink,
    vm_sink_drop
);

impl Sink {
    /// A sink that takes 1 to 31 streams at once and has 1 to 8 receive states.
    pub fn new(streams: u8, slots: u8) -> Result<Sink, Refusal> {
        let mut handle = NONE;
        done(unsafe { raw::vm_sink_new(&mut handle, streams, slots) })?;
        Ok(Sink { handle })
    }

    /// Room for so many units, 1 to 1,024, of so many octets each, 1 to 4,095: from then on `tick` takes no memory while no more wait.
    pub fn reserve(&mut self, units: usize, octets: usize) -> Result<(), Refusal> {
        done(unsafe { raw::vm_sink_reserve(&mut self.handle, units as u64, octets as u64) })
    }

    /// The streams that the sink is on: bit n for BIS n + 1.
    pub fn streams(&mut self) -> u32 {
        let mut streams = 0;
        unsafe { raw::vm_sink_streams(&mut self.handle, &mut streams) }
        streams
    }

    /// A record of published capabilities.
    pub fn add_pac(&mut self, codec: &[u8; 5], caps: &[u8], metadata: &[u8]) -> Result<(), Refusal> {
        done(unsafe {
            raw::vm_sink_add_pac(&mut self.handle, codec.as_ptr(), 5, caps.as_ptr(), caps.len() as u64, metadata.as_ptr(), metadata.len() as u64)
        })
    }

    /// The Sink Audio Locations.
    pub fn set_locations(&mut self, bits: u32) {
        unsafe { raw::vm_sink_set_locations(&mut self.handle, bits) }
    }

    /// The Available Sink Contexts.
    pub fn set_contexts(&mut self, bits: u16) {
        unsafe { raw::vm_sink_set_contexts(&mut self.handle, bits) }
    }

    /// The MTU, 23 to 517.
    pub fn set_mtu(&mut self, mtu: u16) -> Result<(), Refusal> {
        done(unsafe { raw::vm_sink_set_mtu(&mut self.handle, mtu) })
    }

    /// A write to the control point is served.
    pub fn write(&mut self, octets: &[u8]) -> Result<Reply, Refusal> {
        let mut reply = Reply::default();
        done(unsafe { raw::vm_sink_write(&mut self.handle, octets.as_ptr(), octets.len() as u64, &mut reply) })?;
        Ok(reply)
    }

    /// A train is heard: the data of extended and of periodic advertising, the ACAD of its AUX_SYNC_IND, and when that began, in µs.
    pub fn train(&mut self, address_type: u8, sid: u8, ext: &[u8], adv: &[u8], acad: &[u8], now: u64) -> Result<TrainHeard, Refusal> {
        let mut heard = TrainHeard::default();
        done(unsafe {
            raw::vm_sink_train(
                &mut self.handle, address_type, sid, ext.as_ptr(), ext.len() as u64, adv.as_ptr(), adv.len() as u64, acad.as_ptr(),
                acad.len() as u64, now, &mut heard,
            )
        })?;
        Ok(heard)
    }

    /// Puts the sink on these streams of a group, bit n for BIS n + 1. `Err` has the row at fault beside `Refusal::Group`, and else 0.
    pub fn tune(&mut self, info: &BigInfo, streams: u32, first_event: u64, anchor: u64, delay: u32) -> Result<(), (Refusal, u8)> {
        let mut row = 0;
        done(unsafe { raw::vm_sink_tune(&mut self.handle, info, streams, first_event, anchor, delay, &mut row) }).map_err(|it| (it, row))
    }

    /// A PDU in a subevent, from 0, of an event of a stream. It takes no memory.
    pub fn hear(&mut self, event: u64, bis: u8, subevent: u8, pdu: &[u8]) -> Result<Heard, Refusal> {
        let mut heard = Heard::default();
        done(unsafe { raw::vm_sink_hear(&mut self.handle, event, bis, subevent, pdu.as_ptr(), pdu.len() as u64, &mut heard) })?;
        Ok(heard)
    }

    /// What `hear` would answer.
    pub fn would_hear(&mut self, event: u64, bis: u8, subevent: u8, pdu: &[u8]) -> Result<Heard, Refusal> {
        let mut heard = Heard::default();
        done(unsafe { raw::vm_sink_would_hear(&mut self.handle, event, bis, subevent, pdu.as_ptr(), pdu.len() as u64, &mut heard) })?;
        Ok(heard)
    }

    /// A PDU is heard as the control PDU of the group.
    pub fn control(&mut self, pdu: &[u8]) -> Result<Heard, Refusal> {
        let mut heard = Heard::default();
        done(unsafe { raw::vm_sink_control(&mut self.handle, pdu.as_ptr(), pdu.len() as u64, &mut heard) })?;
        Ok(heard)
    }

    /// The train is lost.
    pub fn lost(&mut self) -> Result<(), Refusal> {
        done(unsafe { raw::vm_sink_lost(&mut self.handle) })
    }

    /// All events up to this one are over: the open event of each stream is closed where it is one of them, and its units wait. It is one event
    /// a call, so a tick comes after each. After `Refusal::Memory` the event is closed too, and a prefix of the units waits.
    pub fn tick(&mut self, event: u64) -> Result<(), Refusal> {
        done(unsafe { raw::vm_sink_tick(&mut self.handle, event) })
    }

    /// The first unit that waits; a room of 4,095 octets is always enough.
    pub fn next_unit<'a>(&mut self, room: &'a mut [u8]) -> Result<Option<Unit<'a>>, Refusal> {
        let mut it = raw::Unit::default();
        let status = unsafe { raw::vm_sink_next_unit(&mut self.handle, room.as_mut_ptr(), room.len() as u64, &mut it) };
        waiting(status, || Unit::of(&it, room))
    }

    /// The first notice that waits, its slot and its value, in a room of 512 octets at least.
    pub fn next_notice<'a>(&mut self, room: &'a mut [u8]) -> Result<Option<(u8, &'a [u8])>, Refusal> {
        let (mut slot, mut count) = (0, 0);
        let status = unsafe { raw::vm_sink_next_notice(&mut self.handle, room.as_mut_ptr(), room.len() as u64, &mut slot, &mut count) };
        waiting(status, || (slot, &*front(room, count)))
    }

    /// The value of a slot; a room of 512 octets is always enough.
    pub fn read_state<'a>(&mut self, slot: u8, room: &'a mut [u8]) -> Result<&'a [u8], Refusal> {
        let mut count = 0;
        done(unsafe { raw::vm_sink_read_state(&mut self.handle, slot, room.as_mut_ptr(), room.len() as u64, &mut count) })?;
        Ok(front(room, count))
    }
}
