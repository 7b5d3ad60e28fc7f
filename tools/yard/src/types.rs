//! Data types, states, codes and addresses.

#[derive(Clone, Copy, PartialEq, Eq, Debug)]
#[repr(u8)]
pub enum DataType {
    U8,
    U16,
    U32,
    U64,
    I8,
    I16,
    I32,
    I64,
}

impl DataType {
    pub const ALL: [DataType; 8] = [
        DataType::U8,
        DataType::U16,
        DataType::U32,
        DataType::U64,
        DataType::I8,
        DataType::I16,
        DataType::I32,
        DataType::I64,
    ];
    const WORDS: [&str; 8] =
        ["uint8", "uint16", "uint32", "uint64", "int8", "int16", "int32", "int64"];

    pub fn from_code(code: u8) -> Option<DataType> {
        Self::ALL.get(code as usize).copied()
    }

    pub fn from_word(word: &str) -> Option<DataType> {
        Self::WORDS.iter().position(|w| *w == word).map(|i| Self::ALL[i])
    }

    pub fn code(self) -> u8 {
        self as u8
    }

    pub fn width(self) -> usize {
        1 << (self as u8 & 3)
    }

    pub fn signed(self) -> bool {
        self as u8 >= 4
    }

    pub fn fits(self, value: i128) -> bool {
        let bits = 8 * self.width();
        if self.signed() {
            let half = 1i128 << (bits - 1);
            -half <= value && value < half
        } else {
            0 <= value && value < 1i128 << bits
        }
    }

    /// The value of this type whose two's complement in 64 bits is `bits`.
    pub fn value(self, bits: u64) -> i128 {
        if self.signed() { bits as i64 as i128 } else { bits as i128 }
    }

    /// The two's complement in 64 bits of the value that the first bytes spell.
    pub fn read(self, bytes: &[u8]) -> u64 {
        let mut raw = [0; 8];
        raw[..self.width()].copy_from_slice(&bytes[..self.width()]);
        let shift = 64 - 8 * self.width();
        let bits = u64::from_le_bytes(raw);
        if self.signed() { ((bits << shift) as i64 >> shift) as u64 } else { bits }
    }

    pub fn write(self, value: i128, out: &mut Vec<u8>) {
        out.extend_from_slice(&(value as u64).to_le_bytes()[..self.width()]);
    }
}

#[derive(Clone, Copy, PartialEq, Eq, PartialOrd, Debug)]
#[repr(u8)]
pub enum State {
    Alive,
    Configuration,
    Preparing,
    Prepared,
    Configuring,
    Configured,
    Initializing,
    Initialized,
    SendingI,
    Synchronizing,
    Synchronized,
    Running,
    Computing,
    Computed,
    SendingD,
    Stopping,
    Stopped,
    ErrorHandling,
    ErrorResolved,
}

impl State {
    const ALL: [State; 19] = [
        State::Alive,
        State::Configuration,
        State::Preparing,
        State::Prepared,
        State::Configuring,
        State::Configured,
        State::Initializing,
        State::Initialized,
        State::SendingI,
        State::Synchronizing,
        State::Synchronized,
        State::Running,
        State::Computing,
        State::Computed,
        State::SendingD,
        State::Stopping,
        State::Stopped,
        State::ErrorHandling,
        State::ErrorResolved,
    ];
    pub fn from_code(code: u8) -> Option<State> {
        Self::ALL.get(code as usize).copied()
    }

    pub fn code(self) -> u8 {
        self as u8
    }

    pub fn in_error(self) -> bool {
        matches!(self, State::ErrorHandling | State::ErrorResolved)
    }
}

/// Codes of a nack.
#[derive(Clone, Copy, PartialEq, Eq, Debug)]
#[repr(u16)]
pub enum ErrorCode {
    Sequence = 1,
    WrongState,
    NotSupported,
    UnknownVr,
    TypeMismatch,
    Position,
    IncompleteConfig,
    InputsMissing,
    BadSteps,
    UuidMismatch,
    Version,
    OpMode,
    ValueRange,
    InErrorState,
}

/// Codes of an error_ack.
#[derive(Clone, Copy, PartialEq, Eq, Debug)]
#[repr(u16)]
pub enum FaultCode {
    ModelOverflow = 32,
    DivideByZero,
    OutOfRange,
    HeartbeatMissed,
}

#[derive(Clone, Copy, PartialEq, Eq, Hash, Debug, Default)]
pub struct Address {
    pub ip: u32,
    pub port: u16,
}

impl Address {
    pub fn bytes(self) -> [u8; 6] {
        let (i, p) = (self.ip.to_le_bytes(), self.port.to_le_bytes());
        [i[0], i[1], i[2], i[3], p[0], p[1]]
    }

    pub fn from_bytes(b: &[u8]) -> Address {
        Address {
            ip: u32::from_le_bytes([b[0], b[1], b[2], b[3]]),
            port: u16::from_le_bytes([b[4], b[5]]),
        }
    }
}

pub const UDP: u8 = 0;
pub const TCP: u8 = 4;

/// The generator of the network in memory and of `soak N`.
pub struct Generator(pub u64);

impl Generator {
    pub fn draw(&mut self) -> u64 {
        self.0 = self.0.wrapping_mul(6364136223846793005).wrapping_add(1442695040888963407);
        self.0 >> 33
    }
}
