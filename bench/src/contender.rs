//! What every contender can be asked at one pattern. The records, and the texts that it wrote for them, take turns.

pub trait Contender {
    /// What it writes for a record, if it does.
    fn text(&mut self, record: usize) -> Option<Vec<u8>>;
    fn write_calls(&mut self, calls: usize);
    fn read_calls(&mut self, calls: usize);
}
