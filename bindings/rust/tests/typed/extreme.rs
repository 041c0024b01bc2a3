// Records of extreme values.
use lnav::{AlmanacPage, Header, OtherPage, Record, Subframe1, Subframe2, Subframe3, UtcPage};

// The highest value of each field, or the lowest.
#[derive(Clone, Copy)]
pub enum Extreme {
    Highest,
    Lowest,
}

impl Extreme {
    fn unsigned(self, bits: u32) -> u32 {
        match self {
            Extreme::Highest => u32::MAX >> (32 - bits),
            Extreme::Lowest => 0,
        }
    }

    fn signed(self, bits: u32) -> i32 {
        match self {
            Extreme::Highest => i32::MAX >> (32 - bits),
            Extreme::Lowest => i32::MIN >> (32 - bits),
        }
    }

    fn header(self, subframe: u32) -> Header {
        Header {
            message: self.unsigned(14),
            reserved: self.unsigned(2),
            count: self.unsigned(17).min(100_799),
            flag18: self.unsigned(1),
            flag19: self.unsigned(1),
            subframe,
        }
    }

    pub fn subframe1(self) -> Subframe1 {
        Subframe1 {
            header: self.header(1),
            week: self.unsigned(10),
            l2_code: self.unsigned(2),
            ura: self.unsigned(4),
            health: self.unsigned(6),
            iodc_high: self.unsigned(2),
            l2p_flag: self.unsigned(1),
            reserved4: self.unsigned(23),
            reserved5: self.unsigned(24),
            reserved6: self.unsigned(24),
            reserved7: self.unsigned(16),
            tgd: self.signed(8),
            iodc_low: self.unsigned(8),
            toc: self.unsigned(16),
            af2: self.signed(8),
            af1: self.signed(16),
            af0: self.signed(22),
        }
    }

    pub fn subframe2(self) -> Subframe2 {
        Subframe2 {
            header: self.header(2),
            iode: self.unsigned(8),
            crs: self.signed(16),
            delta_n: self.signed(16),
            m0: self.signed(32),
            cuc: self.signed(16),
            e: self.unsigned(32),
            cus: self.signed(16),
            root_a: self.unsigned(32),
            toe: self.unsigned(16),
            fit: self.unsigned(1),
            aodo: self.unsigned(5),
        }
    }

    pub fn subframe3(self) -> Subframe3 {
        Subframe3 {
            header: self.header(3),
            cic: self.signed(16),
            node: self.signed(32),
            cis: self.signed(16),
            i0: self.signed(32),
            crc: self.signed(16),
            perigee: self.signed(32),
            node_rate: self.signed(24),
            iode: self.unsigned(8),
            idot: self.signed(14),
        }
    }

    pub fn almanac_page(self, sv_id: u32) -> AlmanacPage {
        AlmanacPage {
            header: self.header(5),
            data_id: 1,
            sv_id,
            e: self.unsigned(16),
            toa: self.unsigned(8),
            delta_i: self.signed(16),
            node_rate: self.signed(16),
            health: self.unsigned(8),
            root_a: self.unsigned(24),
            node: self.signed(24),
            perigee: self.signed(24),
            m0: self.signed(24),
            af0: self.signed(11),
            af1: self.signed(11),
        }
    }

    pub fn utc_page(self) -> UtcPage {
        UtcPage {
            header: self.header(4),
            data_id: 1,
            id: 56,
            alpha0: self.signed(8),
            alpha1: self.signed(8),
            alpha2: self.signed(8),
            alpha3: self.signed(8),
            beta0: self.signed(8),
            beta1: self.signed(8),
            beta2: self.signed(8),
            beta3: self.signed(8),
            a1: self.signed(24),
            a0: self.signed(32),
            tot: self.unsigned(8),
            wnt: self.unsigned(8),
            dtls: self.signed(8),
            wnlsf: self.unsigned(8),
            dn: self.unsigned(8),
            dtlsf: self.signed(8),
            reserved10: self.unsigned(14),
        }
    }

    pub fn other_page(self) -> OtherPage {
        OtherPage {
            header: self.header(4),
            data_id: self.unsigned(2),
            id: self.unsigned(6),
            reserved3: self.unsigned(16),
            reserved4: self.unsigned(24),
            reserved5: self.unsigned(24),
            reserved6: self.unsigned(24),
            reserved7: self.unsigned(24),
            reserved8: self.unsigned(24),
            reserved9: self.unsigned(24),
            reserved10: self.unsigned(22),
        }
    }

    pub fn records(self) -> [Record; 6] {
        [
            self.subframe1().into(),
            self.subframe2().into(),
            self.subframe3().into(),
            self.almanac_page(32).into(),
            self.utc_page().into(),
            self.other_page().into(),
        ]
    }
}
