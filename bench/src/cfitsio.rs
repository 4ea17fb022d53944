//! CFITSIO, by the few functions that the bench needs.

use std::ffi::{c_char, c_int, c_long, c_uchar, c_uint, c_ushort, c_void, CStr, CString};
use std::ptr;

#[repr(C)]
struct File {
    _opaque: [u8; 0],
}

#[link(name = "cfitsio")]
extern "C" {
    fn ffomem(
        file: *mut *mut File,
        name: *const c_char,
        mode: c_int,
        buffer: *mut *mut c_void,
        size: *mut usize,
        delta: usize,
        grow: Option<extern "C" fn(*mut c_void, usize) -> *mut c_void>,
        status: *mut c_int,
    ) -> c_int;
    fn ffclos(file: *mut File, status: *mut c_int) -> c_int;
    fn ffghsp(file: *mut File, many: *mut c_int, more: *mut c_int, status: *mut c_int) -> c_int;
    fn ffgkyn(
        file: *mut File,
        at: c_int,
        name: *mut c_char,
        value: *mut c_char,
        comment: *mut c_char,
        status: *mut c_int,
    ) -> c_int;
    fn ffgkyjj(
        file: *mut File,
        name: *const c_char,
        value: *mut i64,
        comment: *mut c_char,
        status: *mut c_int,
    ) -> c_int;
    fn ffgkyd(file: *mut File, name: *const c_char, value: *mut f64, comment: *mut c_char, status: *mut c_int)
        -> c_int;
    fn ffgkyl(
        file: *mut File,
        name: *const c_char,
        value: *mut c_int,
        comment: *mut c_char,
        status: *mut c_int,
    ) -> c_int;
    fn ffgkls(
        file: *mut File,
        name: *const c_char,
        value: *mut *mut c_char,
        comment: *mut c_char,
        status: *mut c_int,
    ) -> c_int;
    fn fffree(value: *mut c_void, status: *mut c_int) -> c_int;
    fn ffinit(file: *mut *mut File, name: *const c_char, status: *mut c_int) -> c_int;
    fn ffcrim(file: *mut File, bits: c_int, axes: c_int, sizes: *mut c_long, status: *mut c_int) -> c_int;
    fn ffukls(
        file: *mut File,
        name: *const c_char,
        value: *const c_char,
        comment: *const c_char,
        status: *mut c_int,
    ) -> c_int;
    fn ffukyj(file: *mut File, name: *const c_char, value: i64, comment: *const c_char, status: *mut c_int) -> c_int;
    fn ffukyd(
        file: *mut File,
        name: *const c_char,
        value: f64,
        shown: c_int,
        comment: *const c_char,
        status: *mut c_int,
    ) -> c_int;
    fn ffvers(version: *mut f32) -> f32;

    fn fits_rcomp(pixels: *const c_int, nx: c_int, tile: *mut c_uchar, room: c_int, nblock: c_int) -> c_int;
    fn fits_rcomp_short(pixels: *const i16, nx: c_int, tile: *mut c_uchar, room: c_int, nblock: c_int) -> c_int;
    fn fits_rcomp_byte(pixels: *const i8, nx: c_int, tile: *mut c_uchar, room: c_int, nblock: c_int) -> c_int;
    fn fits_rdecomp(tile: *const c_uchar, len: c_int, pixels: *mut c_uint, nx: c_int, nblock: c_int) -> c_int;
    fn fits_rdecomp_short(tile: *const c_uchar, len: c_int, pixels: *mut c_ushort, nx: c_int, nblock: c_int) -> c_int;
    fn fits_rdecomp_byte(tile: *const c_uchar, len: c_int, pixels: *mut c_uchar, nx: c_int, nblock: c_int) -> c_int;
}

/// The library's version.
pub fn version() -> String {
    let mut version = 0.0;
    // SAFETY: a live number is lent.
    unsafe { ffvers(&mut version) };
    // Hundredths count the releases: 4.02 is 4.2.
    let hundredths = (version * 100.0).round() as u32;
    format!("{}.{}", hundredths / 100, hundredths % 100)
}

/// Pixels of one of the three widths, as CFITSIO has them.
#[derive(Clone, PartialEq)]
pub enum Pixels {
    Eight(Vec<u8>),
    Sixteen(Vec<u16>),
    ThirtyTwo(Vec<u32>),
}

impl Pixels {
    pub fn new(bits: usize, nx: usize) -> Self {
        match bits {
            8 => Pixels::Eight(vec![0; nx]),
            16 => Pixels::Sixteen(vec![0; nx]),
            _ => Pixels::ThirtyTwo(vec![0; nx]),
        }
    }

    /// Overwrites the pixels, to see that they are written again.
    pub fn spoil(&mut self) {
        match self {
            Pixels::Eight(p) => p.fill(0xa5),
            Pixels::Sixteen(p) => p.fill(0xa5a5),
            Pixels::ThirtyTwo(p) => p.fill(0xa5a5_a5a5),
        }
    }

    /// The pixels as ours are handed out: unsigned at 8 bits and signed otherwise.
    pub fn told(&self) -> Vec<i32> {
        match self {
            Pixels::Eight(p) => p.iter().map(|&p| i32::from(p)).collect(),
            Pixels::Sixteen(p) => p.iter().map(|&p| i32::from(p as i16)).collect(),
            Pixels::ThirtyTwo(p) => p.iter().map(|&p| p as i32).collect(),
        }
    }
}

/// Encodes a tile.
pub fn encode(pixels: &[i32], nblock: usize, bits: usize) -> Vec<u8> {
    let nx = pixels.len() as c_int;
    let mut tile = vec![0; pixels.len() * 5 + 4096];
    let room = tile.len() as c_int;
    let out = tile.as_mut_ptr();
    // SAFETY: live slices with their lengths; the room is more than a raw tile takes.
    let used = unsafe {
        match bits {
            8 => {
                let pixels: Vec<i8> = pixels.iter().map(|&p| p as u8 as i8).collect();
                fits_rcomp_byte(pixels.as_ptr(), nx, out, room, nblock as c_int)
            }
            16 => {
                let pixels: Vec<i16> = pixels.iter().map(|&p| p as i16).collect();
                fits_rcomp_short(pixels.as_ptr(), nx, out, room, nblock as c_int)
            }
            _ => fits_rcomp(pixels.as_ptr(), nx, out, room, nblock as c_int),
        }
    };
    assert!(used > 0, "CFITSIO's encoder");
    tile.truncate(used as usize);
    tile
}

/// Decodes a tile whole.
pub fn decode(tile: &[u8], nblock: usize, pixels: &mut Pixels) {
    let (bytes, len, nblock) = (tile.as_ptr(), tile.len() as c_int, nblock as c_int);
    // SAFETY: live slices with their lengths; the tile is one that the encoder made for as many pixels.
    let failed = unsafe {
        match pixels {
            Pixels::Eight(p) => fits_rdecomp_byte(bytes, len, p.as_mut_ptr(), p.len() as c_int, nblock),
            Pixels::Sixteen(p) => fits_rdecomp_short(bytes, len, p.as_mut_ptr(), p.len() as c_int, nblock),
            Pixels::ThirtyTwo(p) => fits_rdecomp(bytes, len, p.as_mut_ptr(), p.len() as c_int, nblock),
        }
    };
    assert!(failed == 0, "CFITSIO's reading of a tile");
}

/// The bytes that CFITSIO may write for a name, a value or a comment, with some to spare.
const ROOM: usize = 256;

/// A header in memory, opened as a file.
pub struct Opened {
    file: *mut File,
    // What CFITSIO keeps the addresses of.
    _place: Box<(*mut c_void, usize)>,
    _bytes: Vec<u8>,
}

impl Opened {
    /// Opens a copy of the bytes.
    pub fn new(bytes: &[u8]) -> Self {
        let mut bytes = bytes.to_vec();
        let mut place = Box::new((bytes.as_mut_ptr().cast::<c_void>(), bytes.len()));
        let (mut file, mut status) = (ptr::null_mut(), 0);
        let (buffer, size) = (&mut place.0 as *mut _, &mut place.1 as *mut _);
        // SAFETY: the bytes and their place live as long as the file, which is only read, so that nothing grows.
        unsafe { ffomem(&mut file, c"header".as_ptr(), 0, buffer, size, 0, None, &mut status) };
        assert!(status == 0, "CFITSIO opens a header: {status}");
        Opened { file, _place: place, _bytes: bytes }
    }

    /// A file in memory with a header of its own, which may grow.
    pub fn created() -> Self {
        let (mut file, mut status) = (ptr::null_mut(), 0);
        // SAFETY: live numbers; a file without axes has no sizes.
        unsafe {
            ffinit(&mut file, c"mem://".as_ptr(), &mut status);
            ffcrim(file, 8, 0, ptr::null_mut(), &mut status);
        }
        assert!(status == 0, "CFITSIO creates a header: {status}");
        Opened { file, _place: Box::new((ptr::null_mut(), 0)), _bytes: Vec::new() }
    }

    /// Gives a name a string.
    pub fn set_string(&mut self, name: &CStr, value: &CStr, comment: &CStr) {
        let mut status = 0;
        // SAFETY: an open file that may be written, and live strings.
        unsafe { ffukls(self.file, name.as_ptr(), value.as_ptr(), comment.as_ptr(), &mut status) };
        assert!(status == 0, "CFITSIO writes a string: {status}");
    }

    /// Gives a name an integer.
    pub fn set_integer(&mut self, name: &CStr, value: i64, comment: &CStr) {
        let mut status = 0;
        // SAFETY: as above.
        unsafe { ffukyj(self.file, name.as_ptr(), value, comment.as_ptr(), &mut status) };
        assert!(status == 0, "CFITSIO writes an integer: {status}");
    }

    /// Gives a name a double, of which so many digits are shown.
    pub fn set_float(&mut self, name: &CStr, value: f64, digits: c_int, comment: &CStr) {
        let mut status = 0;
        // SAFETY: as above. A negative number asks for significant digits.
        unsafe { ffukyd(self.file, name.as_ptr(), value, -digits, comment.as_ptr(), &mut status) };
        assert!(status == 0, "CFITSIO writes a decimal: {status}");
    }

    /// Reads every card's name, value text and comment, and answers how many there are, END not counted.
    pub fn cards(&mut self) -> usize {
        let (mut many, mut more, mut status) = (0, 0, 0);
        let (mut name, mut value, mut comment) = ([0; ROOM], [0; ROOM], [0; ROOM]);
        // SAFETY: an open file, live numbers, and more room than a card's texts take.
        unsafe {
            ffghsp(self.file, &mut many, &mut more, &mut status);
            for at in 1..=many {
                let (name, value, comment) = (name.as_mut_ptr(), value.as_mut_ptr(), comment.as_mut_ptr());
                ffgkyn(self.file, at, name, value, comment, &mut status);
            }
        }
        assert!(status == 0, "CFITSIO reads cards: {status}");
        many as usize
    }

    fn number<T: Default>(
        &mut self,
        name: &CStr,
        read: unsafe extern "C" fn(*mut File, *const c_char, *mut T, *mut c_char, *mut c_int) -> c_int,
    ) -> T {
        let (mut value, mut comment, mut status) = (T::default(), [0; ROOM], 0);
        // SAFETY: an open file, a live number, and more room than a comment takes.
        unsafe { read(self.file, name.as_ptr(), &mut value, comment.as_mut_ptr(), &mut status) };
        assert!(status == 0, "CFITSIO finds {name:?}: {status}");
        value
    }

    pub fn integer(&mut self, name: &CStr) -> i64 {
        self.number(name, ffgkyjj)
    }

    pub fn float(&mut self, name: &CStr) -> f64 {
        self.number(name, ffgkyd)
    }

    pub fn logical(&mut self, name: &CStr) -> bool {
        self.number(name, ffgkyl) != 0
    }

    /// A string, joined.
    pub fn string(&mut self, name: &CStr) -> Vec<u8> {
        let (mut value, mut comment, mut status) = (ptr::null_mut(), [0; ROOM], 0);
        // SAFETY: an open file, a live pointer, and more room than a comment takes; the string is given back.
        unsafe {
            ffgkls(self.file, name.as_ptr(), &mut value, comment.as_mut_ptr(), &mut status);
            assert!(status == 0, "CFITSIO finds {name:?}: {status}");
            let string = CStr::from_ptr(value).to_bytes().to_vec();
            fffree(value.cast(), &mut status);
            string
        }
    }
}

impl Drop for Opened {
    fn drop(&mut self) {
        let mut status = 0;
        // SAFETY: the file is open, and not used any more.
        unsafe { ffclos(self.file, &mut status) };
    }
}

/// A name as CFITSIO takes it.
pub fn name(name: &str) -> CString {
    CString::new(name).expect("a name without a zero")
}
