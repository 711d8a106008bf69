use std::error::Error;
use std::fmt;

/// Each refusal: its number, its name and what it means, as docs/refusals.txt has them.
macro_rules! refusals {
    ($($number:literal $name:ident $text:literal)*) => {
        /// Why a call was refused. It prints its number and what that means.
        ///
        /// ```
        /// use laxombiit::Refusal;
        ///
        /// assert_eq!(Refusal::StepLost.number(), 6);
        /// let text = "lost time: the f32 sum would be off by more than an eighth of what the step adds";
        /// assert_eq!(Refusal::StepLost.to_string(), format!("refused 6: {text}"));
        /// assert_eq!(Refusal::try_from(6), Ok(Refusal::StepLost));
        /// assert!(Refusal::try_from(0).is_err());
        /// ```
        #[derive(Clone, Copy, Debug, PartialEq, Eq, Hash)]
        #[non_exhaustive]
        pub enum Refusal {
            $(#[doc = concat!(stringify!($number), ": ", $text, ".")] $name = $number,)*
        }

        impl Refusal {
            /// What it means, as [`Display`](fmt::Display) has it behind the number.
            pub fn text(self) -> &'static str {
                match self {
                    $(Refusal::$name => $text,)*
                }
            }
        }

        /// A number as a log of refusals keeps it. 0 is no refusal: it stands for an accepted call.
        impl TryFrom<u32> for Refusal {
            type Error = NoRefusal;

            fn try_from(number: u32) -> Result<Refusal, NoRefusal> {
                match number {
                    $($number => Ok(Refusal::$name),)*
                    number => Err(NoRefusal(number)),
                }
            }
        }
    };
}

refusals! {
    1 ProgressIsNan "the progress is NaN"
    2 EasingNotSupplied "the easing is one of the twelve without a curve"
    3 EasingParameter "a parameter of the easing is not finite or beyond its limit"
    4 RecordBreaksLimit "the tween or the track breaks a limit"
    5 StepTooLong "the step is above 16,777,216 s"
    6 StepLost "lost time: the f32 sum would be off by more than an eighth of what the step adds"
    7 TooManyFolds "the step needs more than 4,096 folds"
    8 ElapsedTooLong "the elapsed of a track without an end would pass 16,777,216 s"
    9 TrackFull "the track has 64 frames, and none of them at this time"
    10 NoFrames "the track has no frames"
    11 TrackLimit "a time, a value, the passes or the total would be beyond its limit"
    12 OutputTooShort "a lent output is shorter than what is to fill it"
    13 NoRoom "the buffer has no room for a log's head, 5 bytes, or for a record, 8 bytes"
    14 StepBelowZero "the step to be logged is NaN or below 0"
    15 WrongMark "the log does not begin with PEL"
    16 UnknownVersion "the log's version is not 1, or is cut short"
    17 WrongLength "the log ends within a record, or is longer than its buffer"
    18 WrongRecord "the record's kind, zero byte or step is wrong"
}

impl Refusal {
    /// The number, as in C and in the manual's table.
    pub fn number(self) -> u32 {
        self as u32
    }

    /// The answer, or the refusal of that number.
    pub(crate) fn or<T>(number: u32, answer: T) -> Result<T, Refusal> {
        match number {
            0 => Ok(answer),
            _ => Err(Refusal::from_number(number)),
        }
    }

    /// A call's number, and what it puts into the place that it is lent.
    pub(crate) fn or_lent<T: Default>(call: impl FnOnce(&mut T) -> u32) -> Result<T, Refusal> {
        let mut place = T::default();
        let number = call(&mut place);
        Refusal::or(number, place)
    }

    /// Of what a call of the library returned, which is not 0: the number is its low byte.
    pub(crate) fn from_number(number: u32) -> Refusal {
        Refusal::try_from(number & 0xff)
            .unwrap_or_else(|no| unreachable!("this crate gives the library no unknown word: {no}"))
    }
}

impl fmt::Display for Refusal {
    fn fmt(&self, f: &mut fmt::Formatter<'_>) -> fmt::Result {
        write!(f, "refused {}: {}", self.number(), self.text())
    }
}

impl Error for Refusal {}

/// A number that is no refusal's, from [`Refusal::try_from`].
#[derive(Clone, Copy, Debug, PartialEq, Eq)]
pub struct NoRefusal(pub u32);

impl fmt::Display for NoRefusal {
    fn fmt(&self, f: &mut fmt::Formatter<'_>) -> fmt::Result {
        write!(f, "no refusal has the number {}", self.0)
    }
}

impl Error for NoRefusal {}
