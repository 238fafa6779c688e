use std::error::Error;
use std::fmt;

/// Why a call was refused: the conditions 1 to 11 and 13. Each call tries those that concern its arguments in rising order, 13 after
/// 4, and answers with the first that applies. Later versions of the library may have further conditions, so a `match` needs an arm
/// for the rest. As values (`Ord`) they are in the order of their numbers, those without a name last.
#[derive(Clone, Copy, Debug, PartialEq, Eq, Hash, PartialOrd, Ord)]
#[non_exhaustive]
pub enum Refusal {
    /// 1: there is no such plan, or the plan has no map (exact integration).
    Plan,
    /// 2: the number of axes is not 1 to 6.
    Axes,
    /// 3: the length of the list is no multiple of the number of axes, or it has more than 512 rows. Adding a row: also a row that
    /// has not a component for each axis, and, where nothing else is wrong, a record that is not the list's. The least modulus: a
    /// record with more than 512 rows, more than 64 mirrors for each row, or a zero row among no rows. Corners: only a length that
    /// is no multiple of the number of axes.
    Length,
    /// 4: a component is not from -255 to 255, or is negative in a cosine plan or in a corner.
    Component,
    /// 5: two rows are equal.
    EqualRows,
    /// 6: the modulus, or the ceiling, is not 1 to 8192.
    Modulus,
    /// 7: the vector has not a component for each axis, or one is not below the modulus.
    Vector,
    /// 8: an output, or the terms or sums, have not the exact length.
    Places,
    /// 9: nothing is admissible.
    NothingAdmissible,
    /// 10: the pair of modulus and vector is not admissible.
    Inadmissible,
    /// 11: a sum is no multiple of its row's copies, or the quotient does not fit 32 bits.
    Ungatherable,
    /// 13: there are no corners or more than 32, or their list has more than 512 rows.
    Corners,
    /// A number that this version of the crate has no name for: the archive that is linked is of a later version.
    Unknown(u8),
}

impl Refusal {
    /// All that have a name, in the order of their numbers.
    pub const ALL: [Refusal; 12] = [
        Refusal::Plan,
        Refusal::Axes,
        Refusal::Length,
        Refusal::Component,
        Refusal::EqualRows,
        Refusal::Modulus,
        Refusal::Vector,
        Refusal::Places,
        Refusal::NothingAdmissible,
        Refusal::Inadmissible,
        Refusal::Ungatherable,
        Refusal::Corners,
    ];

    /// The refusal's number, as the library returned it.
    pub const fn number(self) -> u8 {
        match self {
            Refusal::Plan => 1,
            Refusal::Axes => 2,
            Refusal::Length => 3,
            Refusal::Component => 4,
            Refusal::EqualRows => 5,
            Refusal::Modulus => 6,
            Refusal::Vector => 7,
            Refusal::Places => 8,
            Refusal::NothingAdmissible => 9,
            Refusal::Inadmissible => 10,
            Refusal::Ungatherable => 11,
            Refusal::Corners => 13,
            Refusal::Unknown(number) => number,
        }
    }

    /// What a call's number says: 0 is no refusal, and every other number is one.
    pub(crate) const fn told(number: u8) -> Result<(), Refusal> {
        Err(match number {
            0 => return Ok(()),
            1 => Refusal::Plan,
            2 => Refusal::Axes,
            3 => Refusal::Length,
            4 => Refusal::Component,
            5 => Refusal::EqualRows,
            6 => Refusal::Modulus,
            7 => Refusal::Vector,
            8 => Refusal::Places,
            9 => Refusal::NothingAdmissible,
            10 => Refusal::Inadmissible,
            11 => Refusal::Ungatherable,
            13 => Refusal::Corners,
            _ => Refusal::Unknown(number),
        })
    }
}

impl fmt::Display for Refusal {
    fn fmt(&self, f: &mut fmt::Formatter<'_>) -> fmt::Result {
        f.write_str(match self {
            Refusal::Plan => "there is no such plan, or it has no map",
            Refusal::Axes => "the number of axes is not 1 to 6",
            Refusal::Length => {
                "the list, row or corners are of a wrong length, there are over 512 rows, or the record is wrong"
            }
            Refusal::Component => "a component of a row or corner is outside its range",
            Refusal::EqualRows => "two rows are equal",
            Refusal::Modulus => "the modulus is not 1 to 8192",
            Refusal::Vector => "the vector is of a wrong length, or a component is not below the modulus",
            Refusal::Places => "an output, or the terms or sums, are of a wrong length",
            Refusal::NothingAdmissible => "nothing is admissible",
            Refusal::Inadmissible => "the modulus and the vector are not admissible",
            Refusal::Ungatherable => "a sum is no multiple of its row's copies, or the quotient does not fit 32 bits",
            Refusal::Corners => "there are no corners or over 32, or their list has over 512 rows",
            Refusal::Unknown(number) => return write!(f, "refused with {number}, which this version does not know"),
        })
    }
}

impl Error for Refusal {}

#[cfg(test)]
mod tests {
    use super::Refusal;

    #[test]
    fn every_number_is_told() {
        assert_eq!(Refusal::told(0), Ok(()));
        for number in 1..=u8::MAX {
            let refusal = Refusal::told(number).unwrap_err();
            assert_eq!(refusal.number(), number);
            assert!(refusal.to_string().len() > 10);
            match Refusal::ALL.iter().find(|known| known.number() == number) {
                Some(known) => assert_eq!(refusal, *known),
                None => assert_eq!(refusal, Refusal::Unknown(number)),
            }
        }
        assert!(Refusal::ALL.windows(2).all(|pair| pair[0].number() < pair[1].number() && pair[0] < pair[1]));
        // the form of a text, which only the program refuses
        assert_eq!(Refusal::told(12), Err(Refusal::Unknown(12)));
        assert_eq!(Refusal::told(200), Err(Refusal::Unknown(200)));
        assert!(Refusal::Unknown(200).to_string().contains("200"));
    }
}
