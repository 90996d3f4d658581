//! A station as the comparison hands it to the library's writer and to its test for split groups: 2,315 bytes.
//! The first 2,312 are laid out as a sheet of 64 turnouts and 64 routes is; then come the station's own counts P, R and
//! Z, any bytes.

use reference::sheet::{self, HEADER, ROUTE, TURNOUT};
use reference::writer::{self, RawStation, RawTurnout, RECORDS};

pub const VALUES: usize = 2_315;
const ROUTES_AT: usize = HEADER + TURNOUT * RECORDS;
const COUNTS_AT: usize = ROUTES_AT + ROUTE * RECORDS;

/// The values of a station. The header's Z is the station's; nobody looks at it.
pub fn values(station: &RawStation) -> [u8; VALUES] {
    let counts = [station.turnouts, station.routes, station.zones];
    let all = [RECORDS as u8, RECORDS as u8, station.zones];
    let mut values = [0; VALUES];
    let sheet = writer::lay_out(all, &station.turnout_records, &station.route_records);
    values[..COUNTS_AT].copy_from_slice(&sheet);
    values[COUNTS_AT..].copy_from_slice(&counts);
    values
}

/// The station of such values; their header is not looked at.
pub fn station(values: &[u8; VALUES]) -> RawStation {
    let [.., turnouts, routes, zones] = *values;
    let mut station = RawStation { turnouts, routes, zones, ..RawStation::empty() };
    for (record, bytes) in station.turnout_records.iter_mut().zip(values[HEADER..ROUTES_AT].chunks_exact(TURNOUT)) {
        *record = RawTurnout { zone: bytes[0], group: bytes[1], drive: bytes[2] };
    }
    for (record, bytes) in station.route_records.iter_mut().zip(values[ROUTES_AT..COUNTS_AT].chunks_exact(ROUTE)) {
        *record = sheet::route_fields(bytes);
    }
    station
}

#[cfg(test)]
mod tests {
    use super::*;
    use reference::builders::station_k;
    use reference::refusal::number;

    /// What a buffer holds before the call.
    const BEFORE: u8 = 0xA5;

    /// WRITE-2: "reading them yields that station". K with any single byte changed, in its records, past them and in
    /// its counts. What is written reads as that station; how many are written was counted by hand.
    #[test]
    fn reading_yields_the_station() {
        let k = RawStation::from(&sheet::read(&station_k().bytes()).expect("station K reads"));
        let good = values(&k);
        let mut written_stations = 0;
        for at in 8..good.len() {
            for value in [0, 1, 2, 3, 4, 5, 6, 7, 8, 9, 63, 64, 65, 128, 254, 255] {
                let mut changed = good;
                changed[at] = value;
                let station = station(&changed);
                let mut buffer = [BEFORE; 2400];
                let code = number(&writer::write(&station, &mut buffer));
                if code == 0 {
                    let read = sheet::read(&buffer[..station.sheet_length()]).expect("what was written reads");
                    assert_eq!(RawStation::from(&read), station);
                    written_stations += u32::from(station != k);
                } else {
                    assert_eq!((code, buffer), (7, [BEFORE; 2400]));
                }
            }
        }
        // Z from 2 to 8; P from 4 to 9, the turnouts past 2 with 0 and 1 in group 0; turnout 2 electric; in route 0 run
        // over {1} or {0,1}, flank {}, exit zone {1}, reverse {0}, {2} or {0,2}.
        assert_eq!(written_stations, 7 + 6 + 1 + 7);
    }

    #[test]
    fn values_there_and_back() {
        let mut given = [0; VALUES];
        for (n, value) in given.iter_mut().enumerate() {
            *value = (n * 7 + n / 256) as u8;
        }
        let station = station(&given);
        let again = values(&station);
        assert_eq!(again[..7], *b"SPT\x00\x02\x40\x40");
        assert_eq!(again[8..], given[8..]);
        assert_eq!((station.turnouts, station.routes, station.zones), (given[2312], given[2313], given[2314]));
        let last = RawTurnout { zone: given[197], group: given[198], drive: given[199] };
        assert_eq!(station.turnout_records[63], last);
    }
}
