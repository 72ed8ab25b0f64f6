//! The length fields of a component and which of them are padded: a walk of
//! its own over the octets, which knows no types and refuses nothing.

/// A length field as it stands.
#[derive(Clone, Copy, Debug)]
pub struct Field {
    pub place: usize,
    /// The first octet of its element.
    pub element: u8,
    /// What it says, and in how many octets.
    pub length: usize,
    pub octets: usize,
}

impl Field {
    /// Whether a shorter form would say the same.
    pub fn is_padded(&self) -> bool {
        let least = match self.length {
            0..=127 => 1,
            128..=255 => 2,
            _ => 3,
        };
        self.octets > least
    }
}

pub fn is_padded(component: &[u8]) -> bool {
    length_fields(component).iter().any(Field::is_padded)
}

/// From left to right, as far as the octets are elements.
pub fn length_fields(component: &[u8]) -> Vec<Field> {
    let mut fields = Vec::new();
    let mut place = 0;
    while let Some(field) = field_behind(component, place) {
        // The types and the set hold elements, all others are passed over.
        let passed = match field.element {
            0xE9..=0xEC | 0xF2 => 0,
            _ => field.length,
        };
        place = field.place + field.octets + passed;
        fields.push(field);
    }
    fields
}

/// The length field of the element at this place.
fn field_behind(component: &[u8], place: usize) -> Option<Field> {
    let element = component.get(place..)?;
    let identifier = identifier_octets(element)?;
    let (length, octets) = match element[identifier..] {
        [length @ ..=0x7F, ..] => (usize::from(length), 1),
        [0x81, length, ..] => (usize::from(length), 2),
        [0x82, high, low, ..] => (256 * usize::from(high) + usize::from(low), 3),
        _ => return None,
    };
    Some(Field {
        place: place + identifier,
        element: element[0],
        length,
        octets,
    })
}

/// Where the low five bits are ones more follow, up to the first below 80.
fn identifier_octets(element: &[u8]) -> Option<usize> {
    let (first, rest) = element.split_first()?;
    if first % 32 < 31 {
        return Some(1);
    }
    let last = rest.iter().position(|octet| *octet < 0x80)?;
    Some(last + 2)
}
