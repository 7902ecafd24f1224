//! The entries of the event buffer.

use crate::bytes::{event, status};
use crate::layouts::Outcome;
use crate::EVENT_LEN;

/// What a block left in the event buffer when it had ended.
#[derive(Clone, Copy, Debug, PartialEq, Eq, Hash)]
pub struct Event {
    /// The final status, 80 or 82 (hex).
    pub status: u8,
    /// The error byte, 00 at status 80.
    pub error: u8,
    /// The interrupt level, 0 where the block asked for no interrupt.
    pub level: u8,
    /// The interrupt vector, 0 where the block asked for no interrupt.
    pub vector: u8,
    /// The cylinder of the heads after the block minus the one before, −4,095 to 4,095.
    pub travel: i32,
}

impl Event {
    /// The entry that stands in some bytes.
    pub const fn from_bytes(bytes: &[u8; EVENT_LEN]) -> Event {
        let [.., t0, t1, t2, t3] = *bytes;
        Event {
            status: bytes[event::AT_STATUS],
            error: bytes[event::AT_ERROR],
            level: bytes[event::AT_LEVEL],
            vector: bytes[event::AT_VECTOR],
            travel: i32::from_be_bytes([t0, t1, t2, t3]),
        }
    }

    /// Whether the block ended with status 80.
    pub const fn succeeded(&self) -> bool {
        self.status == status::OK
    }
}

impl Outcome {
    /// The entries of the blocks run, in their order, from the event buffer that the run was lent.
    /// What stands in the buffer after them is older. Of a buffer that ends before them, the whole
    /// entries that it has.
    ///
    /// ```
    /// use vsmd3200::{run, Event, Record};
    ///
    /// let mut host = [0u8; 28];
    /// host[..2].copy_from_slice(&[0x89, 0x02]); // a restore that asks for an interrupt
    /// host[16..20].copy_from_slice(&[3, 0x40, 0, 0x41]); // at level 3, by vector 40 or 41
    /// let mut events = [0u8; 512];
    /// let mut records = [Record::UNINITIALIZED; 2];
    /// let outcome = run(&mut host, &mut [], &mut [], &mut events, &mut records, 0, 1);
    /// for event in outcome.events(&events) {
    ///     assert_eq!((event.succeeded(), event.error), (false, 0x40)); // not initialized
    ///     assert_eq!((event.level, event.vector, event.travel), (3, 0x41, 0));
    /// }
    /// ```
    pub fn events<'a>(&self, buffer: &'a [u8]) -> impl ExactSizeIterator<Item = Event> + 'a {
        let blocks = usize::try_from(self.blocks).unwrap_or(usize::MAX);
        let entries = buffer.chunks_exact(EVENT_LEN).take(blocks);
        entries.map(|entry| {
            let mut bytes = [0; EVENT_LEN];
            bytes.copy_from_slice(entry);
            Event::from_bytes(&bytes)
        })
    }
}
