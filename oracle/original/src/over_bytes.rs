// Included at the end of property_area.rs, in its module: it sees the private fields there without touching the text.

impl PropertyAreaMap {
    /// The map over lent bytes, as `new_rw` makes it over a mapped file.
    ///
    /// # Safety
    /// `data` leads to `size` bytes, 128 at least, at an address that is a multiple of 4; nobody else uses them while the map lives.
    unsafe fn over_bytes(data: *mut u8, size: usize) -> Self {
        Self {
            mmap: MemoryMap { data, size, writable: true },
            data_offset: mem::size_of::<PropertyArea>(),
            pa_data_size: size - mem::size_of::<PropertyArea>(),
        }
    }

    /// What `new_ro` tests of the header.
    pub(crate) fn has_header(&self) -> bool {
        let head = self.property_area();
        head.magic == PROP_AREA_MAGIC && head.version == PROP_AREA_VERSION
    }

    /// What `new_rw` does to the zeroed bytes of a fresh file.
    pub(crate) fn init(&mut self) -> Result<()> {
        self.property_area_mut()?.init(PROP_AREA_MAGIC, PROP_AREA_VERSION);
        Ok(())
    }

    /// The stores of update by name. `backup_and_apply_write` reads the serial after the backup is stored, RULES 5.7 before
    /// any store; they part where a damaged area's entry lies over the backup slot. So the serial that was read goes back
    /// before the original's own write step, whose first store is that serial with its lowest bit set.
    pub(crate) fn update_with_serial(&mut self, entry: u32, serial: u32, old: &[u8], value: &str) -> Result<()> {
        self.set_dirty_backup_area(old)?;
        let info = self.property_info_mut(entry)?;
        info.serial.store(serial, std::sync::atomic::Ordering::Relaxed);
        info.writer().apply_write(value)?;
        Ok(())
    }
}

/// Lends a map over `area` to `call`.
pub(crate) fn lend<R>(area: &mut [u8], call: impl FnOnce(&mut PropertyAreaMap) -> R) -> R {
    assert!(area.len() >= SHORTEST && area.as_ptr() as usize % mem::align_of::<PropertyArea>() == 0);
    // SAFETY: length and alignment are tested; `area` is lent exclusively, and the map, which `call` cannot keep, ends first.
    let mut map = unsafe { PropertyAreaMap::over_bytes(area.as_mut_ptr(), area.len()) };
    call(&mut map)
}

/// Lengths of areas, and the place of an entry's value slot, from the original's own constants and types.
pub(crate) const SHORTEST: usize = mem::size_of::<PropertyArea>();
pub(crate) const LONGEST: usize = PA_SIZE as usize;
pub(crate) const SLOT: usize = mem::size_of::<PropertyArea>() + mem::size_of::<AtomicU32>();
