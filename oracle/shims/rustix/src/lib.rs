//! Stands in for the crate `rustix`: just the names that the original mentions. Areas here are lent byte buffers, so
//! nothing is opened or mapped; what would map a file refuses, and unmapping does nothing, since the buffer's owner frees it.

pub mod io {
    #[derive(Clone, Copy, Debug)]
    pub struct Errno;
}

pub mod fs {
    use super::io::Errno;

    pub struct OFlags(u32);

    impl OFlags {
        pub const NOFOLLOW: OFlags = OFlags(0);

        pub fn bits(&self) -> u32 {
            self.0
        }
    }

    pub struct XattrFlags;

    impl XattrFlags {
        pub fn empty() -> Self {
            XattrFlags
        }
    }

    pub fn fsetxattr<F>(_: F, _: &str, _: &[u8], _: XattrFlags) -> Result<(), Errno> {
        Err(Errno)
    }

    pub fn ftruncate<F>(_: F, _: u64) -> Result<(), Errno> {
        Err(Errno)
    }
}

pub mod mm {
    use super::io::Errno;
    use std::ffi::c_void;

    #[derive(Clone, Copy)]
    pub struct ProtFlags;

    impl ProtFlags {
        pub const READ: ProtFlags = ProtFlags;
        pub const WRITE: ProtFlags = ProtFlags;

        pub fn union(self, _: ProtFlags) -> Self {
            self
        }
    }

    pub struct MapFlags;

    impl MapFlags {
        pub const SHARED: MapFlags = MapFlags;
    }

    /// # Safety
    /// None is needed: it only refuses. The original calls it as `unsafe`.
    pub unsafe fn mmap<F>(_: *mut c_void, _: usize, _: ProtFlags, _: MapFlags, _: F, _: u64) -> Result<*mut c_void, Errno> {
        Err(Errno)
    }

    /// # Safety
    /// None is needed: it does nothing. The original calls it as `unsafe`.
    pub unsafe fn munmap(_: *mut c_void, _: usize) -> Result<(), Errno> {
        Ok(())
    }
}
