//! Where a sector stands in the image of its unit, and how long that image has to be, by the record
//! alone.

use crate::calls::{assert_layouts, foreign};
use crate::layouts::Record;

/// Where a sector stands in the image of its unit.
#[derive(Clone, Copy, Debug, Default, PartialEq, Eq, Hash)]
pub struct Standing {
    /// Its place, counted in sectors from the start of the image. [`inspect`](crate::inspect) takes it.
    pub place: u64,
    /// Its first byte in the image.
    pub first: u64,
    /// The byte of the image that is its mark.
    pub mark: u64,
}

/// Why a record does not tell where a sector stands.
#[derive(Clone, Copy, Debug, PartialEq, Eq, Hash)]
#[repr(u32)]
pub enum Untold {
    /// The unit is not initialized, or its record counts as if it were not.
    NotInitialized = 0x1f7,
    /// The unit has no such sector.
    SectorNotThere = 0x1f8,
}

impl Record {
    /// How many bytes the image of the unit needs: its sectors, and a mark byte for each. None where
    /// the unit is not initialized, or its record counts as if it were not.
    ///
    /// # Panics
    ///
    /// Where the linked library has other layouts than this crate.
    pub fn image_need(&self) -> Option<u64> {
        assert_layouts();
        let record = self.as_bytes();
        let mut bytes = 0;
        // SAFETY: the record is borrowed for the whole call and goes with its own length; the number
        // is a local that nothing else has. The library is proved to touch nothing else and keeps
        // neither.
        let code =
            unsafe { foreign::vsmd_image_need(record.as_ptr(), record.len() as u64, &mut bytes) };
        match told(code) {
            Ok(()) => Some(bytes),
            Err(_) => None,
        }
    }

    /// Where the sector with a number in a volume stands: where a block works that names it, on the
    /// spare of a bad track too. The order of the tracks is the record's. A volume that is absent has
    /// no sector, and there is none but 0 and 1.
    ///
    /// # Panics
    ///
    /// Where the linked library has other layouts than this crate.
    pub fn sector_of(&self, volume: u32, number: u64) -> Result<Standing, Untold> {
        assert_layouts();
        let record = self.as_bytes();
        let mut standing = Standing::default();
        // SAFETY: as in `image_need`, with the three fields of a local.
        let code = unsafe {
            foreign::vsmd_sector_of(
                record.as_ptr(),
                record.len() as u64,
                volume,
                number,
                &mut standing.place,
                &mut standing.first,
                &mut standing.mark,
            )
        };
        told(code).map(|()| standing)
    }

    /// The same of the sector at a cylinder, head and sector. The head is counted over the whole
    /// drive, whatever volume has it, or none.
    ///
    /// # Panics
    ///
    /// Where the linked library has other layouts than this crate.
    pub fn sector_at(&self, cylinder: u16, head: u16, sector: u16) -> Result<Standing, Untold> {
        assert_layouts();
        let record = self.as_bytes();
        let mut standing = Standing::default();
        // SAFETY: as in `sector_of`.
        let code = unsafe {
            foreign::vsmd_sector_at(
                record.as_ptr(),
                record.len() as u64,
                cylinder,
                head,
                sector,
                &mut standing.place,
                &mut standing.first,
                &mut standing.mark,
            )
        };
        told(code).map(|()| standing)
    }
}

/// What a code says. The record is as long as the library asks, so it is refused for nothing else.
fn told(code: u32) -> Result<(), Untold> {
    const NOT_INITIALIZED: u32 = Untold::NotInitialized as u32;
    const SECTOR_NOT_THERE: u32 = Untold::SectorNotThere as u32;
    match code {
        0 => Ok(()),
        NOT_INITIALIZED => Err(Untold::NotInitialized),
        SECTOR_NOT_THERE => Err(Untold::SectorNotThere),
        _ => panic!("the linked library refused a record"),
    }
}
