//! The calendars by their names, for the programs of the listing.
use julian::{ncal, Calendar};

macro_rules! countries {
    ($($n:ident)*) => { &[$((stringify!($n), ncal::$n)),*] };
}

const COUNTRIES: &[(&str, i32)] = countries!(
    ALBANIA AUSTRALIA AUSTRIA BELGIUM BULGARIA CANADA CHINA CZECH_REPUBLIC DENMARK FINLAND FRANCE
    GERMANY GREECE HUNGARY ICELAND ITALY JAPAN LATVIA LITHUANIA LUXEMBOURG NETHERLANDS NORWAY
    POLAND PORTUGAL ROMANIA RUSSIA SLOVENIA SPAIN SWEDEN SWITZERLAND TURKEY UNITED_KINGDOM
    UNITED_STATES YUGOSLAVIA
);

/// All 36 calendars, sorted by name.
pub struct Names(Vec<(&'static str, Calendar)>);

impl Names {
    pub fn new() -> Self {
        let mut all: Vec<_> = COUNTRIES
            .iter()
            .map(|&(name, day)| (name, Calendar::reforming(day).expect("ncal.rs has accepted days")))
            .collect();
        all.push(("JULIAN", Calendar::JULIAN));
        all.push(("GREGORIAN", Calendar::GREGORIAN));
        all.sort_unstable_by_key(|entry| entry.0);
        Names(all)
    }

    pub fn find(&self, name: &[u8]) -> Option<&Calendar> {
        let at = self.0.binary_search_by(|entry| entry.0.as_bytes().cmp(name)).ok()?;
        Some(&self.0[at].1)
    }
}

impl Default for Names {
    fn default() -> Self {
        Names::new()
    }
}
