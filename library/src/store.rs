//! The calls on a store of settings.

use std::fmt;

/// The bytes of a store.
pub const STORE_SIZE: usize = 10240;

/// No setting's text is longer, its line feeds included.
pub const SETTING_ROOM: usize = 233;

/// The versions that a store has room for.
const PLACES: u64 = 256;

/// Versions are numbered from 1 to this.
const LAST_VERSION: u64 = 1 << 48;

/// The library's number for a store of wrong size or shape.
const WRONG_SHAPE: u64 = 4;

/// The numbers that each call can be refused with.
const SAVE_REFUSALS: &[u64] = &[1, 2, 4, 6, 11, 12];
const RETURN_REFUSALS: &[u64] = &[4, 6, 11, 12];
const READ_REFUSALS: &[u64] = &[4, 8, 11];
const KEEP_REFUSALS: &[u64] = &[4, 11];

mod declared {
    // A slice of the library is a pointer and a length.
    extern "C" {
        pub fn lamptwin_store_size() -> usize;
        pub fn lamptwin_store_fresh(store: *mut u8, store_length: usize) -> u64;
        pub fn lamptwin_store_save(
            store: *mut u8,
            store_length: usize,
            table: u64,
            setting: *const u8,
            setting_length: usize,
            value: *mut u64,
        ) -> u64;
        pub fn lamptwin_store_return(
            store: *mut u8,
            store_length: usize,
            table: u64,
            version: u64,
            value: *mut u64,
        ) -> u64;
        pub fn lamptwin_store_read(
            store: *const u8,
            store_length: usize,
            table: u64,
            version: u64,
            buffer: *mut u8,
            buffer_length: usize,
            value: *mut u64,
        ) -> u64;
        pub fn lamptwin_store_keep(
            store: *mut u8,
            store_length: usize,
            list: *const u64,
            list_length: usize,
            value: *mut u64,
        ) -> u64;
    }
}

/// A call was refused; every lent byte is as before.
#[derive(Debug, Clone, Copy, PartialEq, Eq)]
pub struct Refused {
    /// The least number that holds.
    pub code: u64,
}

impl fmt::Display for Refused {
    fn fmt(&self, f: &mut fmt::Formatter<'_>) -> fmt::Result {
        let reason = match self.code {
            1 => "the setting names an unknown kind of chip",
            2 => "the setting has an address that its chip cannot have",
            4 => "the setting, the list or the store has a wrong shape or size",
            6 => "the version's number would be above 2^48",
            8 => "the buffer is too short for the setting",
            11 => "there is no such table or version",
            12 => "the store is full",
            _ => "no call on a store has this number",
        };
        write!(f, "refused with {}: {reason}", self.code)
    }
}

impl std::error::Error for Refused {}

/// `STORE_SIZE`, as the library has it.
pub fn store_size() -> usize {
    // SAFETY: the call takes nothing.
    let size = unsafe { declared::lamptwin_store_size() };
    assert_eq!(size, STORE_SIZE, "a store has the size published");
    size
}

/// Makes a fresh store, which holds no version, whatever the bytes were.
/// Refused with 4 for another length than `STORE_SIZE`.
pub fn store_fresh(store: &mut [u8]) -> Result<(), Refused> {
    // SAFETY: the pointer is valid for its length and never null, and the call
    // writes within it.
    let code = unsafe { declared::lamptwin_store_fresh(store.as_mut_ptr(), store.len()) };
    let wrong = store.len() != STORE_SIZE;
    let expected = if wrong { WRONG_SHAPE } else { 0 };
    assert_eq!(
        code, expected,
        "a size is refused exactly where it is wrong"
    );
    if wrong {
        return Err(Refused { code });
    }
    Ok(())
}

/// Keeps the setting as the table's next version and gives its number. Refused
/// with 1, 2, 4, 6, 11 or 12.
pub fn store_save(store: &mut [u8], table: u64, setting: &[u8]) -> Result<u64, Refused> {
    let mut value = u64::MAX;
    // SAFETY: the pointers are valid for their lengths and never null, two
    // mutable borrows and a shared one cannot overlap, and the call writes
    // within the store and the value alone.
    let code = unsafe {
        declared::lamptwin_store_save(
            store.as_mut_ptr(),
            store.len(),
            table,
            setting.as_ptr(),
            setting.len(),
            &mut value,
        )
    };
    let version = answer(code, value, SAVE_REFUSALS)?;
    assert!(is_version(version), "a save has a version's number");
    Ok(version)
}

/// Goes back to a version: keeps its setting once more, as the table's next
/// version, and gives its number. Refused with 4, 6, 11 or 12.
pub fn store_return(store: &mut [u8], table: u64, version: u64) -> Result<u64, Refused> {
    let mut value = u64::MAX;
    // SAFETY: the pointers are valid for their lengths and never null, two
    // mutable borrows cannot overlap, and the call writes within them alone.
    let code = unsafe {
        declared::lamptwin_store_return(store.as_mut_ptr(), store.len(), table, version, &mut value)
    };
    let version = answer(code, value, RETURN_REFUSALS)?;
    assert!(is_version(version), "a return has a version's number");
    Ok(version)
}

/// Writes the setting of a version to the start of the buffer and gives its
/// length. Refused with 4, 8 or 11.
pub fn store_read(
    store: &[u8],
    table: u64,
    version: u64,
    buffer: &mut [u8],
) -> Result<usize, Refused> {
    let mut value = u64::MAX;
    // SAFETY: the pointers are valid for their lengths and never null, a
    // shared and two mutable borrows cannot overlap, and the call writes
    // within the buffer and the value alone, and nothing to a buffer that is
    // too short.
    let code = unsafe {
        declared::lamptwin_store_read(
            store.as_ptr(),
            store.len(),
            table,
            version,
            buffer.as_mut_ptr(),
            buffer.len(),
            &mut value,
        )
    };
    let length = answer(code, value, READ_REFUSALS)?;
    let room = buffer.len().min(SETTING_ROOM);
    assert!(length <= room as u64, "a setting fits its buffer");
    Ok(length as usize)
}

/// Makes room: keeps of each table the newest version and the versions listed,
/// each as its table, then its number, frees the rest and gives how many that
/// were. What is kept stays where it is, with its number. Refused with 4 or 11.
pub fn store_keep(store: &mut [u8], list: &[u64]) -> Result<u64, Refused> {
    let mut value = u64::MAX;
    // SAFETY: the pointers are valid for their lengths and never null, two
    // mutable borrows and a shared one cannot overlap, and the call writes
    // within the store and the value alone.
    let code = unsafe {
        declared::lamptwin_store_keep(
            store.as_mut_ptr(),
            store.len(),
            list.as_ptr(),
            list.len(),
            &mut value,
        )
    };
    let freed = answer(code, value, KEEP_REFUSALS)?;
    assert!(freed < PLACES, "a newest version is never freed");
    Ok(freed)
}

/// The value of a call that is done, or its refusal by a number of its own.
fn answer(code: u64, value: u64, refusals: &[u64]) -> Result<u64, Refused> {
    if code == 0 {
        return Ok(value);
    }
    assert!(refusals.contains(&code), "a call has refusals of its own");
    assert_eq!(value, 0, "a refused call has the value 0");
    Err(Refused { code })
}

fn is_version(number: u64) -> bool {
    (1..=LAST_VERSION).contains(&number)
}
