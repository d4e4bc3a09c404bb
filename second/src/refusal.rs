//! Refusals: document 01's number, with the record and field it stands at, and document 02's place (C-12).

#[derive(Clone, Copy, Debug, PartialEq, Eq)]
pub struct Refusal {
    pub number: u8,
    pub record: usize,
    pub field: usize,
    /// The byte pointed at, counted from 0.
    pub place: usize,
}

impl Refusal {
    /// A refusal at a record and field, pointing at a place.
    pub fn at(number: u8, record: usize, field: usize, place: usize) -> Refusal {
        Refusal { number, record, field, place }
    }

    /// A refusal of the whole: record and field are 0 unless said, and so is the place.
    pub fn whole(number: u8) -> Refusal {
        Refusal::at(number, 0, 0, 0)
    }
}
