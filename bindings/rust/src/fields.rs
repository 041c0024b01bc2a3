//! The structs of the six kinds of record, with their header inside.
//!
//! A field is the whole number that stands in the message, a `u32` where it is unsigned and an `i32` where it is signed. Its comment gives
//! the bits and, where it is not 1, the scale of the unit. A field may hold any number of its type; the writer refuses by 11 what does not
//! fit. A field that the message reserves is named for its word.

use std::slice::{Iter, IterMut};

/// A number or a struct of them, as values one after the other.
pub(crate) trait Part: Sized {
    fn put(self, values: &mut IterMut<'_, i64>);
    /// None where a value is outside its type, or too few are left.
    fn take(values: &mut Iter<'_, i64>) -> Option<Self>;
}

macro_rules! number {
    ($type:ty) => {
        impl Part for $type {
            fn put(self, values: &mut IterMut<'_, i64>) {
                if let Some(value) = values.next() {
                    *value = self.into();
                }
            }

            fn take(values: &mut Iter<'_, i64>) -> Option<Self> {
                (*values.next()?).try_into().ok()
            }
        }
    };
}

number!(u32);
number!(i32);

/// A struct whose values are those of its fields, in their order.
macro_rules! part {
    ($(#[$about:meta])* pub struct $name:ident { $($(#[$meaning:meta])* pub $field:ident: $type:ty,)* }) => {
        $(#[$about])*
        #[derive(Debug, Clone, Copy, PartialEq, Eq, Default)]
        pub struct $name {
            $($(#[$meaning])* pub $field: $type,)*
        }

        impl Part for $name {
            fn put(self, values: &mut IterMut<'_, i64>) {
                $(self.$field.put(values);)*
            }

            fn take(values: &mut Iter<'_, i64>) -> Option<Self> {
                Some($name { $($field: Part::take(values)?,)* })
            }
        }
    };
}

part! {
    /// Words 1 and 2 after the preamble.
    pub struct Header {
        /// The telemetry message: 14 bits.
        pub message: u32,
        /// Reserved: 2 bits.
        pub reserved: u32,
        /// The time of week of the next subframe's start: 17 bits, at most 100,799, 6 s.
        pub count: u32,
        /// Flag bit 18: 1 bit.
        pub flag18: u32,
        /// Flag bit 19: 1 bit.
        pub flag19: u32,
        /// The subframe number: 3 bits, 1 to 5.
        pub subframe: u32,
    }
}

part! {
    /// Subframe 1: week, health and clock.
    pub struct Subframe1 {
        /// Words 1 and 2.
        pub header: Header,
        /// The week, modulo 1,024: 10 bits.
        pub week: u32,
        /// The code on L2: 2 bits.
        pub l2_code: u32,
        /// The URA index: 4 bits.
        pub ura: u32,
        /// The health: 6 bits. The satellite is unhealthy where the first is 1.
        pub health: u32,
        /// The high bits of IODC: 2 bits.
        pub iodc_high: u32,
        /// The flag of the data on L2 P: 1 bit.
        pub l2p_flag: u32,
        /// Reserved: 23 bits.
        pub reserved4: u32,
        /// Reserved: 24 bits.
        pub reserved5: u32,
        /// Reserved: 24 bits.
        pub reserved6: u32,
        /// Reserved: 16 bits.
        pub reserved7: u32,
        /// TGD: 8 bits, 2^-31 s.
        pub tgd: i32,
        /// The low bits of IODC: 8 bits.
        pub iodc_low: u32,
        /// toc: 16 bits, 2^4 s.
        pub toc: u32,
        /// af2: 8 bits, 2^-55 s/s^2.
        pub af2: i32,
        /// af1: 16 bits, 2^-43 s/s.
        pub af1: i32,
        /// af0: 22 bits, 2^-31 s.
        pub af0: i32,
    }
}

part! {
    /// Subframe 2: the first half of the ephemeris.
    pub struct Subframe2 {
        /// Words 1 and 2.
        pub header: Header,
        /// IODE: 8 bits.
        pub iode: u32,
        /// Crs: 16 bits, 2^-5 m.
        pub crs: i32,
        /// Delta n: 16 bits, 2^-43 semicircles/s.
        pub delta_n: i32,
        /// M0: 32 bits, 2^-31 semicircles.
        pub m0: i32,
        /// Cuc: 16 bits, 2^-29 rad.
        pub cuc: i32,
        /// e: 32 bits, 2^-33.
        pub e: u32,
        /// Cus: 16 bits, 2^-29 rad.
        pub cus: i32,
        /// Root A: 32 bits, 2^-19 m^(1/2).
        pub root_a: u32,
        /// toe: 16 bits, 2^4 s.
        pub toe: u32,
        /// The fit interval flag: 1 bit.
        pub fit: u32,
        /// AODO: 5 bits, 900 s.
        pub aodo: u32,
    }
}

part! {
    /// Subframe 3: the second half of the ephemeris.
    pub struct Subframe3 {
        /// Words 1 and 2.
        pub header: Header,
        /// Cic: 16 bits, 2^-29 rad.
        pub cic: i32,
        /// The node: 32 bits, 2^-31 semicircles.
        pub node: i32,
        /// Cis: 16 bits, 2^-29 rad.
        pub cis: i32,
        /// i0: 32 bits, 2^-31 semicircles.
        pub i0: i32,
        /// Crc: 16 bits, 2^-5 m.
        pub crc: i32,
        /// The perigee: 32 bits, 2^-31 semicircles.
        pub perigee: i32,
        /// The node rate: 24 bits, 2^-43 semicircles/s.
        pub node_rate: i32,
        /// IODE: 8 bits.
        pub iode: u32,
        /// IDOT: 14 bits, 2^-43 semicircles/s.
        pub idot: i32,
    }
}

part! {
    /// An almanac page. The message has af0 in two parts, before and after af1; here it is one value.
    pub struct AlmanacPage {
        /// Words 1 and 2.
        pub header: Header,
        /// The data ID field: 2 bits, 1 here.
        pub data_id: u32,
        /// The SV ID: 6 bits, 1 to 32 here.
        pub sv_id: u32,
        /// e: 16 bits, 2^-21.
        pub e: u32,
        /// toa: 8 bits, 2^12 s.
        pub toa: u32,
        /// Delta i: 16 bits, 2^-19 semicircles.
        pub delta_i: i32,
        /// The node rate: 16 bits, 2^-38 semicircles/s.
        pub node_rate: i32,
        /// The health: 8 bits.
        pub health: u32,
        /// Root A: 24 bits, 2^-11 m^(1/2).
        pub root_a: u32,
        /// The node: 24 bits, 2^-23 semicircles.
        pub node: i32,
        /// The perigee: 24 bits, 2^-23 semicircles.
        pub perigee: i32,
        /// M0: 24 bits, 2^-23 semicircles.
        pub m0: i32,
        /// af0: 11 bits, 2^-20 s.
        pub af0: i32,
        /// af1: 11 bits, 2^-38 s/s.
        pub af1: i32,
    }
}

part! {
    /// The UTC page, with the ionospheric terms.
    pub struct UtcPage {
        /// Words 1 and 2.
        pub header: Header,
        /// The data ID field: 2 bits, 1 here.
        pub data_id: u32,
        /// The ID: 6 bits, 56 here.
        pub id: u32,
        /// Alpha 0: 8 bits, 2^-30 s.
        pub alpha0: i32,
        /// Alpha 1: 8 bits, 2^-27 s/semicircle.
        pub alpha1: i32,
        /// Alpha 2: 8 bits, 2^-24 s/semicircle^2.
        pub alpha2: i32,
        /// Alpha 3: 8 bits, 2^-24 s/semicircle^3.
        pub alpha3: i32,
        /// Beta 0: 8 bits, 2^11 s.
        pub beta0: i32,
        /// Beta 1: 8 bits, 2^14 s/semicircle.
        pub beta1: i32,
        /// Beta 2: 8 bits, 2^16 s/semicircle^2.
        pub beta2: i32,
        /// Beta 3: 8 bits, 2^16 s/semicircle^3.
        pub beta3: i32,
        /// A1: 24 bits, 2^-50 s/s.
        pub a1: i32,
        /// A0: 32 bits, 2^-30 s.
        pub a0: i32,
        /// tot: 8 bits, 2^12 s.
        pub tot: u32,
        /// WNt, the week of tot, modulo 256: 8 bits.
        pub wnt: u32,
        /// dtLS, the offset before the leap moment: 8 bits, s.
        pub dtls: i32,
        /// WNLSF, the week of the leap moment, modulo 256: 8 bits.
        pub wnlsf: u32,
        /// DN, the day of the leap moment: 8 bits.
        pub dn: u32,
        /// dtLSF, the offset from the leap moment on: 8 bits, s.
        pub dtlsf: i32,
        /// Reserved: 14 bits.
        pub reserved10: u32,
    }
}

part! {
    /// Each other page of subframes 4 and 5.
    pub struct OtherPage {
        /// Words 1 and 2.
        pub header: Header,
        /// The data ID field: 2 bits.
        pub data_id: u32,
        /// The ID: 6 bits.
        pub id: u32,
        /// Reserved: 16 bits.
        pub reserved3: u32,
        /// Reserved: 24 bits.
        pub reserved4: u32,
        /// Reserved: 24 bits.
        pub reserved5: u32,
        /// Reserved: 24 bits.
        pub reserved6: u32,
        /// Reserved: 24 bits.
        pub reserved7: u32,
        /// Reserved: 24 bits.
        pub reserved8: u32,
        /// Reserved: 24 bits.
        pub reserved9: u32,
        /// Reserved: 22 bits.
        pub reserved10: u32,
    }
}
