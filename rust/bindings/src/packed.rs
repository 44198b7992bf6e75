//! The number of 64 bits that the library answers, taken apart: answer + 256 · number + 65,536 · first + 4,294,967,296 · second.

use crate::refusal::{Reason, Refusal};
use crate::{Comparison, Fit, Lack};

/// The fields of an answer that is no refusal.
#[derive(Clone, Copy, Debug, PartialEq, Eq)]
pub(crate) struct Fields {
    /// 1 for yes, contained, nothing missing and a count; 2 for no, not contained and to be added; 3 where no item fits both.
    pub(crate) answer: u8,
    pub(crate) first: u16,
    pub(crate) second: u16,
}

/// The fields, or the refusal, which has the answer 0.
pub(crate) fn fields(packed: u64) -> Result<Fields, Refusal> {
    let [answer, number, first_low, first_high, second_low, second_high, _, _] =
        packed.to_le_bytes();
    let first = u16::from_le_bytes([first_low, first_high]);
    let second = u16::from_le_bytes([second_low, second_high]);
    if answer == 0 {
        return Err(Refusal {
            reason: Reason::from_number(number),
            input: first,
            place: second,
        });
    }
    Ok(Fields {
        answer,
        first,
        second,
    })
}

/// The count, or the refusal.
pub(crate) fn count(packed: u64) -> Result<u16, Refusal> {
    fields(packed).map(|fields| fields.second)
}

/// The fit answer, or the refusal.
pub(crate) fn fit(packed: u64) -> Result<Fit, Refusal> {
    Ok(match fields(packed)?.answer {
        1 => Fit::Yes,
        _ => Fit::No,
    })
}

/// What is missing, or the refusal.
pub(crate) fn lack(packed: u64) -> Result<Lack, Refusal> {
    Ok(match fields(packed)?.answer {
        1 => Lack::Nothing,
        2 => Lack::Addable,
        _ => Lack::Against,
    })
}

/// The answer of the comparison, or the refusal.
pub(crate) fn comparison(packed: u64) -> Result<Comparison, Refusal> {
    let fields = fields(packed)?;
    Ok(match fields.answer {
        1 => Comparison::Contained,
        _ => Comparison::NotContained {
            entry: fields.first,
            entries: fields.second,
        },
    })
}

#[cfg(test)]
mod tests {
    use super::*;

    #[test]
    fn each_field_has_its_own_bits() {
        let packed = 2 + 65_536 * 0x0304 + 4_294_967_296 * 0x0506;
        let parts = Fields {
            answer: 2,
            first: 0x0304,
            second: 0x0506,
        };
        assert_eq!(fields(packed), Ok(parts));
        assert_eq!(count(1 + 4_294_967_296 * 1008), Ok(1008));
    }

    #[test]
    fn each_refusal_has_its_number() {
        for number in 1..=20 {
            let packed = 256 * u64::from(number) + 65_536 * 164 + 4_294_967_296 * 2016;
            let refusal = fields(packed).unwrap_err();
            assert_eq!(refusal.reason.number(), number);
            assert_eq!((refusal.input, refusal.place), (164, 2016));
        }
    }
}
