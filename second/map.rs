//! The fixed map of RULES.md, section 3.1: five locations, three products, fifteen requirements.
//!
//! The requirements come in five areas of three. Requirement `3 * area + q` is that of the area for product q, and it
//! takes product p supplied at a location of the area when p is at least q. Prices and quantities are both sums over
//! that one relation, so both functions below walk the same table of areas.

pub const LOCATIONS: usize = 5;
pub const PRODUCTS: usize = 3;
pub const AREAS: usize = 5;
pub const REQUIREMENTS: usize = PRODUCTS * AREAS;

// Products by number, as RULES.md, section 3, counts them.
pub const THIRTY: usize = 0;
pub const TEN: usize = 1;
pub const SPINNING: usize = 2;

/// Which locations (West, East, Southeast, New York City, Long Island) meet the requirements of an area.
const MET_BY: [[bool; LOCATIONS]; AREAS] = [
    [true, true, true, true, true],     // all locations
    [false, true, true, true, true],    // East and beyond
    [false, false, true, true, true],   // Southeast and beyond
    [false, false, false, true, false], // New York City
    [false, false, false, false, true], // Long Island
];

/// A figure for each product at each location: `[location][product]`.
pub type ByPlace = [[i64; PRODUCTS]; LOCATIONS];

/// A figure for each requirement.
pub type ByRequirement = [i64; REQUIREMENTS];

/// The clearing price of every product at every location.
pub fn clearing_prices(shadow: &ByRequirement) -> ByPlace {
    let mut prices = [[0; PRODUCTS]; LOCATIONS];
    for (area, met_by) in MET_BY.iter().enumerate() {
        let of_area = &shadow[PRODUCTS * area..PRODUCTS * (area + 1)];
        // A better product counts toward all that a worse one counts toward, hence running sums.
        let thirty = of_area[THIRTY];
        let ten = thirty + of_area[TEN];
        let spinning = ten + of_area[SPINNING];
        for (location, met) in met_by.iter().enumerate() {
            if *met {
                prices[location][THIRTY] += thirty;
                prices[location][TEN] += ten;
                prices[location][SPINNING] += spinning;
            }
        }
    }
    prices
}

/// The quantity of every requirement, from the tenths scheduled of every product at every location.
pub fn quantities(tenths: &ByPlace) -> ByRequirement {
    let mut quantities = [0; REQUIREMENTS];
    for (area, met_by) in MET_BY.iter().enumerate() {
        let of_area = &mut quantities[PRODUCTS * area..PRODUCTS * (area + 1)];
        for (location, met) in met_by.iter().enumerate() {
            if *met {
                let spinning = tenths[location][SPINNING];
                let ten = spinning + tenths[location][TEN];
                let thirty = ten + tenths[location][THIRTY];
                of_area[SPINNING] += spinning;
                of_area[TEN] += ten;
                of_area[THIRTY] += thirty;
            }
        }
    }
    quantities
}
