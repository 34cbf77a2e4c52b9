/// Counts of the records that were judged.
///
/// ```
/// let tally = grainlantern::Tally::default();
/// assert_eq!(tally.seen, 0);
/// ```
#[repr(C)]
#[derive(Clone, Copy, Debug, Default, PartialEq, Eq, Hash)]
pub struct Tally {
    /// All records that were kept, dropped or refused.
    pub seen: u32,
    /// Records that the filter keeps.
    pub kept: u32,
    /// Records that it doesn't keep.
    pub dropped: u32,
    /// Records that aren't readable.
    pub refused: u32,
}
