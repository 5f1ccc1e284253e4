//! The field viewer of the planning desk: it judges no tag and no length.

/// One field as it stands in a file.
#[derive(Clone, Copy, Debug, PartialEq, Eq)]
pub struct Field<'a> {
    /// Offset of the field's tag.
    pub offset: usize,
    pub tag: u8,
    pub body: &'a [u8],
}

/// What the viewer gives when asked for the next field.
#[derive(Clone, Copy, Debug, PartialEq, Eq)]
pub enum View<'a> {
    Field(Field<'a>),
    Ended,
    /// Refusal 1: the header or the body runs past the end.
    PastEnd,
}

/// A file's bytes and the place reached in them.
pub struct Viewer<'a> {
    bytes: &'a [u8],
    place: usize,
}

impl<'a> Viewer<'a> {
    /// A viewer at the start of a file.
    pub fn new(bytes: &'a [u8]) -> Viewer<'a> {
        Viewer { bytes, place: 0 }
    }

    /// The place reached: the offset of the field to come.
    pub fn place(&self) -> usize {
        self.place
    }

    /// Gives the next field and moves past it, or says the file has ended, or gives refusal 1 and stays.
    pub fn give(&mut self) -> View<'a> {
        let rest = &self.bytes[self.place..];
        if rest.is_empty() {
            return View::Ended;
        }
        if rest.len() < 3 {
            return View::PastEnd;
        }
        let length = usize::from(rest[1]) * 256 + usize::from(rest[2]);
        if rest.len() < 3 + length {
            return View::PastEnd;
        }
        let field = Field {
            offset: self.place,
            tag: rest[0],
            body: &rest[3..3 + length],
        };
        self.place += 3 + length;
        View::Field(field)
    }
}
