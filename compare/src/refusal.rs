//! "Turned back, in this order": the numbers, and the areas that a call is lent.

/// 1. Fewer than five bytes, or the length isn't the count of bytes after it.
pub const LENGTH: u32 = 1;
/// 2. The version isn't 1, nor 2 in a yard or tree book.
pub const VERSION: u32 = 2;
/// 3. The header is incomplete, or a junction, road, yard, region or landmark count is outside its limits.
pub const HEADER: u32 = 3;
/// 4. A record is incomplete, or bytes follow the last one.
pub const RECORD: u32 = 4;
/// 5. A record's value is outside its range or order.
pub const VALUE: u32 = 5;
/// 6. Some junction can't be reached from junction 0.
pub const UNREACHED: u32 = 6;
/// 7. The tree's shape rules don't hold.
pub const SHAPE: u32 = 7;
/// 8. Junction counts or yards disagree between books, or a yard isn't a junction of the road book.
pub const DISAGREE: u32 = 8;
/// 9. In a check only: a stored distance, least or greatest isn't the true one; "a false kind byte in a tree".
pub const UNTRUE: u32 = 9;
/// 10. Crews are none, more than 16, or at no junction of the road book.
pub const CREWS: u32 = 10;
/// 11. k, the aggregate code, m or the leaf limit is outside its range.
pub const PARAMETER: u32 = 11;
/// 12. A lent area is too short.
pub const AREA: u32 = 12;
/// "Refused: 13, the wanted byte is 0, tested directly after 11."
pub const WANTED: u32 = 13;

/// "work below 16,384 words".
pub const WORK_WORDS: usize = 16_384;

/// "A refusal returns its number": one test, with the number it refuses by.
pub fn refuse_unless(holds: bool, number: u32) -> Result<(), u32> {
    if holds {
        Ok(())
    } else {
        Err(number)
    }
}

/// "Check, build and search zero the first 16,384 words of the work area and leave any after them."
pub fn zero_work(work: &mut [u32]) {
    work.iter_mut().take(WORK_WORDS).for_each(|word| *word = 0);
}
