//! Counts of routes over groups, in sheets of both versions: what the flank and the positions were refused for, and
//! what was accepted of groups larger than a crossover. SHEET-8, SHEET-9.

use reference::set::Set;
use reference::sheet::{self, flank_takes_groups_whole, pairwise_disjoint, reverse_within_union, same_position};
use reference::station::{Route, Station};

const NAMES: [&str; 6] = [
    "6 for a part of a group of two in the flank alone",
    "6 for a part of a larger group in the flank alone",
    "6 for two positions in a group of two alone",
    "route accepted with a larger group as flank",
    "route accepted with a part of a larger group",
    "route accepted with two positions in a larger group",
];

#[derive(Default)]
pub struct Routes([u64; 6]);

impl Routes {
    /// A sheet whose route `n` is bad; its turnouts are good.
    pub fn bad(&mut self, bytes: &[u8], n: usize) {
        let routes_at = 8 + 3 * usize::from(bytes[5]);
        let mut turnouts = bytes[..routes_at].to_vec();
        turnouts[6] = 0;
        let station = sheet::read(&turnouts).expect("good turnouts");
        let route = sheet::route_fields(&bytes[routes_at + 33 * n..][..33]);
        let groups = station.groups();
        let in_zone = route.named() & !station.of_zone(route.zone) == 0;
        if !pairwise_disjoint(&route) || !in_zone || route.run_over == 0 || !reverse_within_union(&route) {
            return;
        }
        match (flank_takes_groups_whole(&route, &groups), same_position(&route, &groups)) {
            (false, true) => {
                let mut split = groups.split_by(route.flank);
                let larger = split.any(|(_, group)| group.count_ones() > 2);
                self.0[usize::from(larger)] += 1;
            }
            (true, false) => self.0[2] += 1,
            _ => {}
        }
    }

    pub fn accepted(&mut self, station: &Station) {
        let groups = station.groups();
        let larger: Vec<Set> = groups.iter().map(|(_, group)| group).filter(|group| group.count_ones() > 2).collect();
        for route in &station.routes {
            let any = |of: fn(&Route, Set) -> bool| u64::from(larger.iter().any(|&group| of(route, group)));
            self.0[3] += any(|route, group| route.flank & group != 0);
            self.0[4] += any(|route, group| route.named() & group != 0 && group & !route.named() != 0);
            let positions = |route: &Route, group: Set| ![0, route.named() & group].contains(&(route.reverse & group));
            self.0[5] += any(positions);
        }
    }

    pub fn counts(&self) -> Vec<(String, u64)> {
        NAMES.iter().zip(self.0).map(|(name, count)| (name.to_string(), count)).collect()
    }
}
