//! The names of error octets: Table 6 of N.S0010.

use crate::refusal::Refusal;

/// Empty for a code that the table reserves. Of 131 it prints "MSID MIN",
/// where MIN is the struck-out old word.
pub fn name(code: u8) -> &'static str {
    match code {
        129 => "UnrecognizedMIN",
        130 => "UnrecognizedESN",
        131 => "MSID/HLRMismatch",
        132 => "OperationSequenceProblem",
        133 => "ResourceShortage",
        134 => "OperationNotSupported",
        135 => "TrunkUnavailable",
        136 => "ParameterError",
        137 => "SystemFailure",
        138 => "UnrecognizedParameterValue",
        139 => "FeatureInactive",
        140 => "MissingParameter",
        141 => "UnrecognizedTMSI",
        142 => "TMSI/VLRMismatch",
        _ => "",
    }
}

/// Puts the name at the start of the buffer; accepted is its count of octets.
/// A buffer that is too short for it stays as it is.
pub fn put_name(code: u8, buffer: &mut [u8]) -> Result<usize, Refusal> {
    let name = name(code).as_bytes();
    let start = buffer
        .get_mut(..name.len())
        .ok_or_else(|| Refusal::new(17, name.len(), "name"))?;
    start.copy_from_slice(name);
    Ok(name.len())
}
