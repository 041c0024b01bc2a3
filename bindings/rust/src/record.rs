//! A record of any kind, and its 25 values.

use crate::fields::{AlmanacPage, OtherPage, Part, Subframe1, Subframe2, Subframe3, UtcPage};
use crate::raw::Values;

/// The kinds: the case of `Record`, the struct in it, and the number of the kind.
macro_rules! kinds {
    ($($(#[$about:meta])* $case:ident($type:ident) = $kind:literal,)*) => {
        /// A record of any kind.
        #[derive(Debug, Clone, Copy, PartialEq, Eq)]
        pub enum Record {
            $($(#[$about])* $case($type),)*
        }

        impl Record {
            /// The number of the kind, 1 to 6.
            ///
            /// ```
            /// assert_eq!(lnav::Record::from(lnav::UtcPage::default()).kind(), 5);
            /// ```
            pub fn kind(&self) -> u8 {
                match self {
                    $(Record::$case(_) => $kind,)*
                }
            }

            /// The values: the header, the fields in order, then zeros.
            ///
            /// ```
            /// let mut page = lnav::OtherPage::default();
            /// page.data_id = 2;
            /// assert_eq!(lnav::Record::Other(page).values()[6], 2);
            /// ```
            pub fn values(&self) -> Values {
                match self {
                    $(Record::$case(record) => record.values(),)*
                }
            }

            /// The record of a kind with these values; none where no record of the kind has them.
            ///
            /// ```
            /// use lnav::{OtherPage, Record};
            /// assert_eq!(Record::from_values(6, &[0; 25]), Some(Record::Other(OtherPage::default())));
            /// assert_eq!(Record::from_values(7, &[0; 25]), None);
            /// assert_eq!(Record::from_values(6, &[-1; 25]), None);
            /// ```
            pub fn from_values(kind: u8, values: &Values) -> Option<Record> {
                match kind {
                    $($kind => $type::from_values(values).map(Record::$case),)*
                    _ => None,
                }
            }
        }

        $(
            impl From<$type> for Record {
                fn from(record: $type) -> Record {
                    Record::$case(record)
                }
            }

            impl $type {
                /// The values: the header, the fields in order, then zeros.
                ///
                /// ```
                #[doc = concat!("let record = lnav::", stringify!($type), "::default();")]
                /// assert_eq!(record.values(), [0; 25]);
                /// ```
                pub fn values(&self) -> Values {
                    let mut values = [0; 25];
                    self.put(&mut values.iter_mut());
                    values
                }

                /// The record with these values; none where a value is outside its type, or not 0 after the last field.
                ///
                /// ```
                #[doc = concat!("let record = lnav::", stringify!($type), "::default();")]
                #[doc = concat!("assert_eq!(lnav::", stringify!($type), "::from_values(&[0; 25]), Some(record));")]
                /// ```
                pub fn from_values(values: &Values) -> Option<$type> {
                    let mut left = values.iter();
                    let record = $type::take(&mut left)?;
                    left.all(|&value| value == 0).then_some(record)
                }
            }
        )*
    };
}

kinds! {
    /// Kind 1.
    Subframe1(Subframe1) = 1,
    /// Kind 2.
    Subframe2(Subframe2) = 2,
    /// Kind 3.
    Subframe3(Subframe3) = 3,
    /// Kind 4.
    Almanac(AlmanacPage) = 4,
    /// Kind 5.
    Utc(UtcPage) = 5,
    /// Kind 6.
    Other(OtherPage) = 6,
}
