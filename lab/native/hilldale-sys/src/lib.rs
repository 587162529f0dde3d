//! The proved work of `hilldale run` and `hilldale check` on bytes in memory. `hilldale.h` says more of texts and units.

/// The functions of the C library as they are.
pub mod sys {
    extern "C" {
        pub fn hilldale_run(
            surface: *const u8, surface_length: usize, script: *const u8, script_length: usize,
            tile: u32, out: *mut u8, room: usize, needed: *mut u64,
        ) -> u8;
        pub fn hilldale_run_and_save(
            surface: *const u8, surface_length: usize, script: *const u8, script_length: usize,
            tile: u32, out: *mut u8, room: usize, needed: *mut u64,
            saved: *mut u8, saved_room: usize, saved_needed: *mut u64,
        ) -> u8;
        pub fn hilldale_check(
            surface: *const u8, surface_length: usize, certificate: *const u8, certificate_length: usize,
            out: *mut u8, room: usize, needed: *mut u64,
        ) -> u8;
    }
}

/// How a call ended, by the program's status.
#[derive(Clone, Copy, Debug, PartialEq, Eq)]
#[repr(u8)]
pub enum Status {
    Done = 0,
    LineRefused = 1,
    Usage = 2,
    SurfaceRefused = 3,
    CertificateRefused = 4,
    Memory = 7,
    TooLong = 8,
}

impl Status {
    fn of(code: u8) -> Status {
        match code {
            0 => Status::Done,
            1 => Status::LineRefused,
            2 => Status::Usage,
            3 => Status::SurfaceRefused,
            4 => Status::CertificateRefused,
            8 => Status::TooLong,
            _ => Status::Memory,
        }
    }
}

/// The side of a tile that the program takes where none is given.
pub const TILE: u32 = 64;

/// The room of the first call. Where the text is longer, a second one has room for all of it.
const ROOM: usize = 65_536;

/// Answers the lines of a script on a surface: the status, and the text that `hilldale run` prints.
pub fn run(surface: &[u8], script: &[u8], tile: u32) -> (Status, Vec<u8>) {
    with_room(|out, needed| unsafe {
        sys::hilldale_run(
            surface.as_ptr(), surface.len(), script.as_ptr(), script.len(),
            tile, out.as_mut_ptr(), out.len(), needed,
        )
    })
}

/// The same, and the surface that the lines leave, which is empty where nothing is saved.
pub fn run_and_save(surface: &[u8], script: &[u8], tile: u32) -> (Status, Vec<u8>, Vec<u8>) {
    let mut saved = vec![0; surface.len() + ROOM];
    loop {
        let mut saved_needed = 0;
        let (status, text) = with_room(|out, needed| unsafe {
            sys::hilldale_run_and_save(
                surface.as_ptr(), surface.len(), script.as_ptr(), script.len(),
                tile, out.as_mut_ptr(), out.len(), needed,
                saved.as_mut_ptr(), saved.len(), &mut saved_needed,
            )
        });
        let length = usize::try_from(saved_needed).expect("a text in memory");
        let fits = length <= saved.len();
        saved.resize(length, 0);
        if fits {
            return (status, text, saved);
        }
    }
}

/// Checks a certificate of a surface: the status, and the text that `hilldale check` prints.
pub fn check(surface: &[u8], certificate: &[u8]) -> (Status, Vec<u8>) {
    with_room(|out, needed| unsafe {
        sys::hilldale_check(
            surface.as_ptr(), surface.len(), certificate.as_ptr(), certificate.len(),
            out.as_mut_ptr(), out.len(), needed,
        )
    })
}

fn with_room(mut call: impl FnMut(&mut [u8], &mut u64) -> u8) -> (Status, Vec<u8>) {
    let mut out = vec![0; ROOM];
    loop {
        let mut needed = 0;
        let code = call(&mut out, &mut needed);
        let length = usize::try_from(needed).expect("a text in memory");
        let fits = length <= out.len();
        out.resize(length, 0);
        if fits {
            return (Status::of(code), out);
        }
    }
}
