//! Refusals: a number and a place (document 01, "Numbers given back").

/// The longest input, of a recording the longest entry (number 1).
pub const LONGEST_INPUT: usize = 65_528;

#[derive(Debug, Clone, Copy, PartialEq, Eq)]
pub struct Refusal {
    pub number: u8,
    pub place: u64,
}

impl Refusal {
    /// A refusal that has no place of its own, as all but 2 and 3 have.
    pub fn number(number: u8) -> Refusal {
        Refusal { number, place: 0 }
    }
}

/// One test in the ordered list of a call: refuses with that number where there is the fault.
pub fn refuse(number: u8, fault: bool) -> Result<(), Refusal> {
    refuse_at(number, 0, fault)
}

/// Likewise, for a number that has a place.
pub fn refuse_at(number: u8, place: u64, fault: bool) -> Result<(), Refusal> {
    if fault {
        return Err(Refusal { number, place });
    }
    Ok(())
}

/// What a number says, in short.
pub fn words(number: u8) -> &'static str {
    match number {
        0 => "done",
        1 => "a length outside its range",
        2 => "an item or entry runs past the end",
        3 => "a name stands twice",
        4 => "required item missing",
        5 => "known item of a length not in the table",
        6 => "a field's value not allowed",
        7 => "FAC CRC",
        8 => "SDC CRC or its four zero bits",
        9 => "FAC or MSC mode not served",
        10 => "description not well formed",
        11 => "stream bytes differ in length from the description",
        12 => "streams exceed the capacity",
        13 => "settings",
        14 => "unit empty, too long or of an id over 2",
        15 => "no room in that queue",
        16 => "packet CRC or count",
        17 => "state",
        18 => "timestamp without a successor",
        _ => "no number of document 01",
    }
}
