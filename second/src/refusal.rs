//! What the reader and the writer give instead of an accepted answer.

/// The paper's number and detail. `why` only serves the report: it tells
/// apart the reasons that the paper puts under one number.
#[derive(Clone, Copy, Debug)]
pub struct Refusal {
    pub number: u8,
    pub detail: u32,
    pub why: &'static str,
}

impl Refusal {
    /// Every detail fits 32 bits: places lie below 4,097, and 64 entries of
    /// 65,535 octets need less than 2 to the power 23 octets.
    pub fn new(number: u8, detail: usize, why: &'static str) -> Refusal {
        let detail = u32::try_from(detail).expect("a detail fits 32 bits");
        Refusal {
            number,
            detail,
            why,
        }
    }

    /// Octet 0 the number, octets 1 to 4 the detail, the rest 0.
    pub fn packed(&self) -> u64 {
        u64::from(self.number) | u64::from(self.detail) << 8
    }
}

impl PartialEq for Refusal {
    fn eq(&self, other: &Refusal) -> bool {
        (self.number, self.detail) == (other.number, other.detail)
    }
}
