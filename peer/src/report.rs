//! Reports: their twelve bytes, their codes, and the lent buffer that takes them.

pub const REPORT_LEN: usize = 12;
pub const MOST_REPORTS: usize = 544;
/// A ticket's buffer has at least this many bytes.
pub const BUFFER_LEN: usize = MOST_REPORTS * REPORT_LEN;
/// Stands where a report of a cut has no order number.
pub const NO_ORDER: u16 = u16::MAX;

/// What a report tells.
#[derive(Clone, Copy, PartialEq, Eq, Debug)]
#[repr(u8)]
pub enum Code {
    NewOrder = 1,
    Settled = 2,
    Refused = 3,
    Expired = 4,
    RecallAsked = 5,
    Returned = 6,
    RecallDeclined = 7,
    AnswerDue = 8,
    StillWaiting = 9,
    OpenDebit = 10,
    Held = 11,
}

/// A report as it is read back from the buffer.
#[derive(Clone, Copy, PartialEq, Eq, Debug)]
pub struct Report {
    pub to: u8,
    pub code: u8,
    pub order: u16,
    pub amount: u64,
}

impl Report {
    fn to_bytes(self) -> [u8; REPORT_LEN] {
        let mut bytes = [0; REPORT_LEN];
        bytes[0] = self.to;
        bytes[1] = self.code;
        bytes[2..4].copy_from_slice(&self.order.to_be_bytes());
        bytes[4..].copy_from_slice(&self.amount.to_be_bytes());
        bytes
    }

    fn from_bytes(bytes: &[u8; REPORT_LEN]) -> Self {
        let [to, code, o0, o1, amount @ ..] = *bytes;
        Report { to, code, order: u16::from_be_bytes([o0, o1]), amount: u64::from_be_bytes(amount) }
    }
}

/// The first reports of a buffer, as many as the answer counts.
pub fn reports(buffer: &[u8], count: usize) -> impl Iterator<Item = Report> + '_ {
    buffer.as_chunks().0[..count].iter().map(Report::from_bytes)
}

/// Writes reports one after the other from the buffer's start.
pub struct Writer<'a> {
    rows: &'a mut [[u8; REPORT_LEN]],
    count: usize,
}

impl<'a> Writer<'a> {
    /// None if the buffer is too short.
    pub fn new(buffer: &'a mut [u8]) -> Option<Self> {
        let buffer: &mut [u8; BUFFER_LEN] = buffer.first_chunk_mut()?;
        Some(Writer { rows: buffer.as_chunks_mut().0, count: 0 })
    }

    pub fn push(&mut self, to: u8, code: Code, order: u16, amount: u64) {
        self.rows[self.count] = Report { to, code: code as u8, order, amount }.to_bytes();
        self.count += 1;
    }

    pub fn count(&self) -> usize {
        self.count
    }
}
