//! The exported reader and writer as C calls them; none where the library was not there at build time.
use super::Lattice;

pub const LINKED: bool = cfg!(port);

#[cfg(port)]
#[rustfmt::skip]
extern "C" {
    fn tsorvenk_read_edges(
        n: usize, d: usize, fwd: *const u32, fwd_len: usize, bwd: *const u32, bwd_len: usize,
        text: *const u8, text_len: usize, couplings: *mut i32, couplings_len: usize,
    ) -> u8;
    fn tsorvenk_write_edges(
        n: usize, d: usize, fwd: *const u32, fwd_len: usize, bwd: *const u32, bwd_len: usize,
        couplings: *const i32, couplings_len: usize, text: *mut u8, text_len: usize,
        written: *mut usize, written_len: usize,
    ) -> u8;
}

// Each pointer goes with the length of the slice that it was taken from, and what is written overlaps no other.

#[cfg(port)]
#[rustfmt::skip]
pub fn read(lattice: &Lattice, text: &[u8], couplings: &mut [i32]) -> Option<u8> {
    let Lattice { n, d, fwd, bwd } = lattice;
    Some(unsafe {
        tsorvenk_read_edges(
            *n, *d, fwd.as_ptr(), fwd.len(), bwd.as_ptr(), bwd.len(),
            text.as_ptr(), text.len(), couplings.as_mut_ptr(), couplings.len(),
        )
    })
}

#[cfg(port)]
#[rustfmt::skip]
pub fn write(lattice: &Lattice, couplings: &[i32], text: &mut [u8], written: &mut [usize]) -> Option<u8> {
    let Lattice { n, d, fwd, bwd } = lattice;
    Some(unsafe {
        tsorvenk_write_edges(
            *n, *d, fwd.as_ptr(), fwd.len(), bwd.as_ptr(), bwd.len(),
            couplings.as_ptr(), couplings.len(), text.as_mut_ptr(), text.len(), written.as_mut_ptr(), written.len(),
        )
    })
}

#[cfg(not(port))]
pub fn read(_: &Lattice, _: &[u8], _: &mut [i32]) -> Option<u8> {
    None
}

#[cfg(not(port))]
pub fn write(_: &Lattice, _: &[i32], _: &mut [u8], _: &mut [usize]) -> Option<u8> {
    None
}
