// The collector: what is given of the blocks of a log that were fed.
use crate::fields::{AlmanacPage, Subframe1, Subframe2, Subframe3, UtcPage};
use crate::raw;
use crate::refusal::Refusal;

/// A satellite's set: the latest subframes 1, 2 and 3, of one issue, with the first health bit clear.
#[derive(Debug, Clone, Copy, PartialEq, Eq)]
pub struct OrbitSet {
    /// The latest subframe 1.
    pub subframe1: Subframe1,
    /// The latest subframe 2.
    pub subframe2: Subframe2,
    /// The latest subframe 3.
    pub subframe3: Subframe3,
}

/// The accepted feeds of one log, in their order. The static library keeps nothing, so each question feeds them all again to the empty collector
/// and takes time by their number.
///
/// ```
/// # use lnav::{History, Polarity, Record, Refusal, Subframe1, Subframe2, Subframe3};
/// # let (mut one, mut two, mut three) = (Subframe1::default(), Subframe2::default(), Subframe3::default());
/// # (one.header.subframe, two.header.subframe, three.header.subframe) = (1, 2, 3);
/// # let mut log = Vec::new();
/// # for record in [Record::from(one), two.into(), three.into()] {
/// #     log.extend(lnav::block(&record, Polarity::Upright)?);
/// # }
/// // The log has the blocks of the records `one`, `two` and `three`, a subframe 1, 2 and 3 of one issue.
/// let mut history = History::new(&log);
/// history.feed(0, 5)?;
/// history.feed(302, 5)?;
/// assert_eq!(history.set(5), Err(Refusal { number: 17, detail: 3 }));
/// history.feed(604, 5)?;
/// assert_eq!(history.set(5)?.subframe3, three);
/// # Ok::<(), Refusal>(())
/// ```
#[derive(Debug, Clone)]
pub struct History<'a> {
    log: &'a [u8],
    places: Vec<usize>,
    satellites: Vec<usize>,
}

impl<'a> History<'a> {
    /// No feed so far.
    ///
    /// ```
    /// assert_eq!(lnav::History::new(&[]).set(5).unwrap_err().number, 17);
    /// ```
    pub fn new(log: &'a [u8]) -> History<'a> {
        History {
            log,
            places: Vec::new(),
            satellites: Vec::new(),
        }
    }

    /// Feeds the block at the place, for the satellite. Refused by 13, or as the block check refuses; a refused feed changes nothing.
    ///
    /// ```
    /// let refusal = lnav::History::new(&[0; 302]).feed(0, 33).unwrap_err();
    /// assert_eq!(refusal, lnav::Refusal { number: 13, detail: 33 });
    /// ```
    pub fn feed(&mut self, place: usize, satellite: usize) -> Result<(), Refusal> {
        raw::feed(self.log, place, satellite)?;
        self.places.push(place);
        self.satellites.push(satellite);
        Ok(())
    }

    /// The satellite's set. Refused by 13; 17: a subframe is not held; 18: they are of different issues; 19: the first health bit is 1.
    ///
    /// ```
    /// let history = lnav::History::new(&[]);
    /// assert_eq!(history.set(5), Err(lnav::Refusal { number: 17, detail: 1 }));
    /// ```
    pub fn set(&self, satellite: usize) -> Result<OrbitSet, Refusal> {
        let mut set = [[0; 25]; 3];
        raw::set(
            self.log,
            &self.places,
            &self.satellites,
            satellite,
            &mut set,
        )?;
        Ok(OrbitSet {
            subframe1: Subframe1::from_values(&set[0]).expect(GIVEN),
            subframe2: Subframe2::from_values(&set[1]).expect(GIVEN),
            subframe3: Subframe3::from_values(&set[2]).expect(GIVEN),
        })
    }

    /// The latest almanac page of the SV ID, whichever satellite sent it. Refused by 13 or 20.
    ///
    /// ```
    /// let history = lnav::History::new(&[]);
    /// assert_eq!(history.almanac(0), Err(lnav::Refusal { number: 13, detail: 0 }));
    /// assert_eq!(history.almanac(1), Err(lnav::Refusal { number: 20, detail: 0 }));
    /// ```
    pub fn almanac(&self, id: usize) -> Result<AlmanacPage, Refusal> {
        let mut values = [0; 25];
        raw::almanac(self.log, &self.places, &self.satellites, id, &mut values)?;
        Ok(AlmanacPage::from_values(&values).expect(GIVEN))
    }

    /// The latest UTC page. Refused by 20.
    ///
    /// ```
    /// let history = lnav::History::new(&[]);
    /// assert_eq!(history.utc_page(), Err(lnav::Refusal { number: 20, detail: 0 }));
    /// ```
    pub fn utc_page(&self) -> Result<UtcPage, Refusal> {
        let mut values = [0; 25];
        raw::utc_page(self.log, &self.places, &self.satellites, &mut values)?;
        Ok(UtcPage::from_values(&values).expect(GIVEN))
    }
}

/// Why the values that the collector gives always make a record.
const GIVEN: &str = "the collector gives values of the kind";
