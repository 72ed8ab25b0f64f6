//! Which package carries which component of which operation: Table 2 of
//! X.S0004-540, line by line in its order.

use crate::package::{CONVERSATION, CONVERSATION_WITHOUT, QUERY, RESPONSE, UNIDIRECTIONAL};
use crate::types::TYPES;

/// The package type of an INVOKE, of a RESULT, of an ERROR and of a REJECT;
/// none where the table has no line for that component.
pub type Carriers = [Option<u8>; 4];

pub struct Line {
    pub operation: &'static str,
    pub specifier: u8,
    pub carriers: Carriers,
}

/// The names that the table prints, CONVERSATION WITHOUT PERMISSION and so on.
const CWO: Option<u8> = Some(CONVERSATION_WITHOUT);
const CW: Option<u8> = Some(CONVERSATION);
const QW: Option<u8> = Some(QUERY);
const R: Option<u8> = Some(RESPONSE);
const U: Option<u8> = Some(UNIDIRECTIONAL);
const NO: Option<u8> = None;

const fn line(operation: &'static str, specifier: u8, carriers: Carriers) -> Line {
    Line {
        operation,
        specifier,
        carriers,
    }
}

pub static LINES: [Line; 13] = [
    line("ChangeFacilities", 58, [CWO, CW, CW, CW]),
    line("ConnectionFailureReport", 65, [CW, NO, CW, CW]),
    line("ConnectResource", 66, [CWO, NO, CW, CW]),
    line("DisconnectResource", 67, [CWO, NO, CW, CW]),
    line("FacilitiesDirective", 2, [QW, CW, R, R]),
    line("FacilitiesDirective2", 36, [QW, CW, R, R]),
    line("InstructionRequest", 69, [CW, R, R, R]),
    line("MobileOnChannel", 3, [R, NO, NO, NO]),
    line("RemoteUserInteractionDirective", 50, [CWO, CW, CW, CW]),
    line("ResetTimer", 71, [CWO, NO, CW, CW]),
    line("SeizeResource", 73, [QW, CWO, R, R]),
    line("SMSDeliveryPointToPointAck", 78, [U, NO, NO, NO]),
    line("SRFDirective", 74, [CWO, CW, R, R]),
];

/// The last line: all other operations, those that nobody knows included.
pub const OTHERS: Carriers = [QW, R, R, R];

/// The package that carries a component of this type of this operation.
pub fn carrier(kind: u8, operation: u8) -> Option<u8> {
    let column = TYPES.iter().position(|one| one.octet == kind)?;
    let line = LINES.iter().find(|line| line.specifier == operation);
    line.map_or(OTHERS, |line| line.carriers)[column]
}
