//! The paper's numbers for C: an answer is one number, and a refusal is 4,294,967,296 plus its own.

/// A number, or the number of a refusal.
pub type Answer = Result<u64, u64>;

/// A refusal is this plus its number. Exactly this is none: it stands for "no input" and "nothing waits".
pub const REFUSED: u64 = 1 << 32;

/// Where a run was filled and more remains, this is added to the count.
pub const MORE: u64 = 1 << 33;

/// How many places of a run were filled, and whether something didn't fit.
#[derive(Clone, Copy, Debug, PartialEq, Eq)]
pub struct Filled {
    pub count: u64,
    pub more: bool,
}

/// An answer as C gets it.
pub fn to_c(answer: Answer) -> u64 {
    answer.unwrap_or_else(|refusal| REFUSED + refusal)
}

/// A number of C's taken apart. Loses nothing: `Err(n)` stands for `REFUSED + n` and for no other number.
#[inline]
pub fn from_c(number: u64) -> Answer {
    if number > REFUSED {
        Err(number - REFUSED)
    } else {
        Ok(number)
    }
}

/// The same where exactly 4,294,967,296 may come, which is none.
pub fn some_from_c(number: u64) -> Result<Option<u64>, u64> {
    Ok(Some(from_c(number)?).filter(|&number| number != REFUSED))
}

/// The same of a run that is filled: `Err(n)` stands for `REFUSED + n` below `MORE`.
#[inline]
pub fn filled_from_c(number: u64) -> Result<Filled, u64> {
    match number {
        ..REFUSED => Ok(Filled {
            count: number,
            more: false,
        }),
        MORE.. => Ok(Filled {
            count: number - MORE,
            more: true,
        }),
        _ => Err(number - REFUSED),
    }
}
