//! Lent buffers with margins, so that a write past the end shows.

/// Places before and after the lent ones that must stay as they were.
const MARGIN: usize = 8;

/// Numbers that a side may lend out, between two margins.
#[derive(Clone, PartialEq, Eq)]
pub struct Buffer<T> {
    places: Vec<T>,
    lent: usize,
}

impl<T: Copy + PartialEq> Buffer<T> {
    /// A buffer that lends these values.
    pub fn holding(values: &[T], margin: T) -> Buffer<T> {
        let mut places = vec![margin; MARGIN];
        places.extend(values);
        places.extend([margin; MARGIN]);
        Buffer {
            places,
            lent: values.len(),
        }
    }

    /// Room for `most` places, all filled with `fill`, none lent yet.
    pub fn filled(most: usize, fill: T) -> Buffer<T> {
        Buffer {
            places: vec![fill; most + 2 * MARGIN],
            lent: 0,
        }
    }

    /// Fills every place and lends the first `length` of them.
    pub fn refill(&mut self, fill: T, length: usize) {
        self.places.fill(fill);
        self.lent = length;
    }

    /// Fills every place and lends the first ones with these values.
    pub fn refill_with(&mut self, fill: T, values: &[T]) {
        self.refill(fill, values.len());
        self.lent().copy_from_slice(values);
    }

    /// Takes over all places of another buffer of the same size.
    pub fn copy_from(&mut self, other: &Buffer<T>) {
        self.places.copy_from_slice(&other.places);
        self.lent = other.lent;
    }

    pub fn lent(&mut self) -> &mut [T] {
        &mut self.places[MARGIN..MARGIN + self.lent]
    }

    pub fn values(&self) -> &[T] {
        &self.places[MARGIN..MARGIN + self.lent]
    }

    /// The first index that differs, counted from the first lent place.
    pub fn first_difference(&self, other: &Buffer<T>) -> Option<isize> {
        let pairs = self.places.iter().zip(&other.places);
        let index = pairs.into_iter().position(|(mine, theirs)| mine != theirs);
        index.map(|index| index as isize - MARGIN as isize)
    }

    /// The value at an index of `first_difference`.
    pub fn at(&self, index: isize) -> T {
        self.places[(index + MARGIN as isize) as usize]
    }
}

/// How two buffers differ, in words; nothing if they don't.
pub fn difference<T>(name: &str, library: &Buffer<T>, paper: &Buffer<T>) -> Option<String>
where
    T: Copy + PartialEq + std::fmt::UpperHex,
{
    let index = library.first_difference(paper)?;
    let (ours, theirs) = (library.at(index), paper.at(index));
    Some(format!(
        "{name}[{index}]: library {ours:#X}, paper {theirs:#X}"
    ))
}
