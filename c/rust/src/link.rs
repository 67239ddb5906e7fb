//! An assistant on a link to a server.
use crate::raw::{self, Handle, NONE};
use crate::{done, front, waiting, Fault, Identity, Refusal};

owned!(
    /// An assistant on a link to a server.
    Link,
    vm_link_drop
);

impl Link {
    /// An assistant that joins a server of so many slots.
    pub fn new(slots: u8) -> Result<Link, Refusal> {
        let mut handle = NONE;
        done(unsafe { raw::vm_link_new(&mut handle, slots) })?;
        Ok(Link { handle })
    }

    /// The MTU, 23 to 517: a notice of MTU - 3 octets may be cut.
    pub fn set_mtu(&mut self, mtu: u16) -> Result<(), Refusal> {
        done(unsafe { raw::vm_link_set_mtu(&mut self.handle, mtu) })
    }

    /// Any octets wait as the last write.
    pub fn put(&mut self, write: &[u8]) -> Result<(), Refusal> {
        done(unsafe { raw::vm_link_put(&mut self.handle, write.as_ptr(), write.len() as u64) })
    }

    /// A Remote Scan Started, or else a Remote Scan Stopped, waits as the last write.
    pub fn scan(&mut self, is_started: bool) -> Result<(), Refusal> {
        done(unsafe { raw::vm_link_scan(&mut self.handle, is_started) })
    }

    /// An Add Source waits as the last write. For each subgroup it has the streams that are asked for, and metadata: an octet that counts
    /// it and so many octets, one subgroup behind the other.
    pub fn add(&mut self, source: &Identity, pa_sync: u8, pa_interval: u16, bis_sync: &[u32], metadata: &[u8]) -> Result<(), Refusal> {
        done(unsafe {
            raw::vm_link_add(
                &mut self.handle, source.address_type, source.address.as_ptr(), source.sid, source.broadcast_id.as_ptr(), pa_sync, pa_interval,
                bis_sync.as_ptr(), bis_sync.len() as u64, metadata.as_ptr(), metadata.len() as u64,
            )
        })
    }

    /// A Modify Source waits as the last write, with streams and metadata as in `add`.
    pub fn modify(&mut self, source_id: u8, pa_sync: u8, pa_interval: u16, bis_sync: &[u32], metadata: &[u8]) -> Result<(), Refusal> {
        done(unsafe {
            raw::vm_link_modify(
                &mut self.handle, source_id, pa_sync, pa_interval, bis_sync.as_ptr(), bis_sync.len() as u64, metadata.as_ptr(),
                metadata.len() as u64,
            )
        })
    }

    /// A Remove Source waits as the last write.
    pub fn remove(&mut self, source_id: u8) -> Result<(), Refusal> {
        done(unsafe { raw::vm_link_remove(&mut self.handle, source_id) })
    }

    /// A Set Broadcast_Code waits as the last write.
    pub fn code(&mut self, source_id: u8, code: &[u8; 16]) -> Result<(), Refusal> {
        done(unsafe { raw::vm_link_code(&mut self.handle, source_id, code.as_ptr()) })
    }

    /// The first write that waits, in a room of 512 octets at least.
    pub fn next_write<'a>(&mut self, room: &'a mut [u8]) -> Result<Option<&'a [u8]>, Refusal> {
        let mut count = 0;
        let status = unsafe { raw::vm_link_next_write(&mut self.handle, room.as_mut_ptr(), room.len() as u64, &mut count) };
        waiting(status, || &*front(room, count))
    }

    /// A notification of a slot is heard. `Err` has the fault of the value beside `Refusal::BadNotice`.
    pub fn notice(&mut self, slot: u8, value: &[u8]) -> Result<(), (Refusal, Fault)> {
        let mut fault = Fault::default();
        done(unsafe { raw::vm_link_notice(&mut self.handle, slot, value.as_ptr(), value.len() as u64, &mut fault) }).map_err(|it| (it, fault))
    }

    /// A read of each slot waits.
    pub fn ask_all(&mut self) {
        unsafe { raw::vm_link_ask_all(&mut self.handle) }
    }

    /// The lowest slot of which a read waits.
    pub fn next_read(&mut self) -> Option<u8> {
        let mut slot = 0;
        let status = unsafe { raw::vm_link_next_read(&mut self.handle, &mut slot) };
        (status == 0).then_some(slot)
    }

    /// The value that a read of the slot gave.
    pub fn answer_read(&mut self, slot: u8, value: &[u8]) -> Result<(), (Refusal, Fault)> {
        let mut fault = Fault::default();
        done(unsafe { raw::vm_link_answer_read(&mut self.handle, slot, value.as_ptr(), value.len() as u64, &mut fault) })
            .map_err(|it| (it, fault))
    }

    /// What the assistant has of a slot.
    pub fn view<'a>(&mut self, slot: u8, room: &'a mut [u8]) -> Result<&'a [u8], Refusal> {
        let mut count = 0;
        done(unsafe { raw::vm_link_view(&mut self.handle, slot, room.as_mut_ptr(), room.len() as u64, &mut count) })?;
        Ok(front(room, count))
    }
}
