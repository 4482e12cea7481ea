//! The register table of 000 (Tables 16 to 33): places, access, reset bytes.

pub const CONFIG_1: usize = 0x00;
pub const CONFIG_2: usize = 0x01;
pub const STATUS_1: usize = 0x02;
pub const STATUS_2: usize = 0x03;
pub const EXTENDED: usize = 0x06;
pub const SPEED: usize = 0x08; // fan 1; fan 2 follows
pub const READING: usize = 0x0A; // local; remote 1, remote 2 follow
pub const OFFSET: usize = 0x0D; // local; remote 1, remote 2 follow
pub const TACH_LIMIT: usize = 0x10; // fan 1; fan 2 follows
pub const HIGH_LIMIT: usize = 0x14; // local; each channel 4 further
pub const LOW_LIMIT: usize = 0x15;
pub const THERM_LIMIT: usize = 0x16;
pub const SPIN_UP: usize = 0x20; // fan 1; fan 2 follows
pub const MIN_SPEED: usize = 0x22;
pub const FILTER: usize = 0x23;
pub const CONTROL: usize = 0x24; // local; remote 1, remote 2 follow
pub const BEHAVIOR: usize = 0x3F;

/// Spin-up times in clock events, tenths of a second (Tables 9 and 23).
pub const SPIN_CLOCKS: [u8; 8] = [2, 4, 6, 8, 10, 20, 40, 80];

/// The 11.25 kHz clock that measures a fan's revolution, by the minute (eq. 14).
pub const TICKS_A_MINUTE: i32 = 60 * 11_250;

// reply 4: the registers with a row in Table 16 or 17
pub fn exists(register: i32) -> bool {
    matches!(
        register,
        0x00..=0x03 | 0x06..=0x11 | 0x14..=0x16 | 0x18..=0x1A | 0x1C..=0x1E | 0x20..=0x26 | 0x3D..=0x3F
    )
}

// reply 5: no bit of these can be written
pub fn read_only(register: i32) -> bool {
    matches!(register, 0x02 | 0x03 | 0x06 | 0x0A..=0x0C | 0x3D | 0x3E)
}

// "bits that 000 makes read-only keep theirs": the bits a write changes
pub fn write_mask(register: usize) -> u8 {
    match register {
        0x0E | 0x0F => 0x8F,
        0x3F => 0xF0,
        _ => 0xFF,
    }
}

// the bytes after power; all others are 0
pub fn reset_bytes() -> [u8; 64] {
    let mut regs = [0; 64];
    let bytes: [(usize, u8); 20] = [
        (0x00, 0x90),
        (0x01, 0x7F),
        (0x10, 0xFF),
        (0x11, 0xFF),
        (0x14, 60),
        (0x16, 70),
        (0x18, 80),
        (0x1A, 100),
        (0x1C, 80),
        (0x1E, 100),
        (0x20, 0x5D),
        (0x21, 0x5D),
        (0x22, 0x55),
        (0x23, 0x50),
        (0x24, 0x41),
        (0x25, 0x61),
        (0x26, 0x61),
        (0x3D, 0x31),
        (0x3E, 0x41),
        (0x3F, 0x80),
    ];
    for (register, byte) in bytes {
        regs[register] = byte;
    }
    regs
}

// temperatures 4: high, low and THERM places of a channel
pub fn status_places(channel: usize) -> [(usize, usize); 3] {
    match channel {
        0 => [(STATUS_1, 6), (STATUS_1, 7), (STATUS_2, 6)],
        1 => [(STATUS_1, 2), (STATUS_1, 3), (STATUS_1, 4)],
        _ => [(STATUS_2, 2), (STATUS_2, 3), (STATUS_2, 4)],
    }
}
