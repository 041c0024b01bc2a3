// The collector: the latest subframes 1 to 3 by satellite, almanac pages by SV ID,
// and the latest UTC page.
use super::record::read;
use super::{refuse, Refusal, Values};

// Indices of values.
const SV_ID: usize = 7;
const HEALTH: usize = 9;
const IODC_LOW: usize = 17;
const IODE_2: usize = 6;
const IODE_3: usize = 13;

// Rows are used by satellite or SV ID; row 0 stays empty.
pub struct Collector {
    subframes: [[Option<Values>; 3]; 33],
    almanac: [Option<Values>; 33],
    utc: Option<Values>,
}

fn check_satellite(number: usize) -> Result<(), Refusal> {
    if !(1..=32).contains(&number) {
        return refuse(13, number);
    }
    Ok(())
}

impl Collector {
    pub fn new() -> Self {
        Collector {
            subframes: [[None; 3]; 33],
            almanac: [None; 33],
            utc: None,
        }
    }

    /// Keep the record of the block at p, received from a satellite.
    pub fn feed(&mut self, log: &[u8], p: usize, satellite: usize) -> Result<(), Refusal> {
        check_satellite(satellite)?;
        let (kind, values) = read(log, p)?;
        match kind {
            1..=3 => self.subframes[satellite][usize::from(kind) - 1] = Some(values),
            4 => self.almanac[values[SV_ID] as usize] = Some(values),
            5 => self.utc = Some(values),
            _ => {}
        }
        Ok(())
    }

    /// The held subframes 1, 2 and 3 of a satellite.
    pub fn set(&self, satellite: usize) -> Result<[Values; 3], Refusal> {
        check_satellite(satellite)?;
        let mut set = [[0; 25]; 3];
        for (i, held) in self.subframes[satellite].iter().enumerate() {
            match held {
                Some(values) => set[i] = *values,
                None => return refuse(17, i + 1),
            }
        }
        let issue = set[0][IODC_LOW];
        if set[1][IODE_2] != issue || set[2][IODE_3] != issue {
            return refuse(18, 0);
        }
        let health = set[0][HEALTH];
        if health >> 5 == 1 {
            return refuse(19, health as usize);
        }
        Ok(set)
    }

    pub fn almanac(&self, id: usize) -> Result<Values, Refusal> {
        check_satellite(id)?;
        self.almanac[id].map_or(refuse(20, 0), Ok)
    }

    pub fn utc_page(&self) -> Result<Values, Refusal> {
        self.utc.map_or(refuse(20, 0), Ok)
    }
}
