//! The codes that the paper itself lists: sites and methods.

use super::code::{short, ShortCode};

pub const MO: ShortCode = short(b"MO");
pub const NO: ShortCode = short(b"NO");
pub const PO: ShortCode = short(b"PO");
pub const IN: ShortCode = short(b"IN");

/// II 9's codes (000, Table 14), ascending.
const SITES: [ShortCode; 27] = ascending([
    "LA", "LAF", "LAL", "LAU", "LDG", "LG", "LL", "LLL", "LLU", "LVG", "MO", "MS", "NO", "OTH",
    "RA", "RAF", "RAL", "RAU", "RDG", "RG", "RL", "RLL", "RLU", "RVG", "UNK", "VE", "WO",
]);

/// II 10's codes (000, Table 15), ascending.
const METHODS: [ShortCode; 10] =
    ascending(["G", "ID", "IM", "IN", "INF", "IV", "OTH", "PO", "SC", "UNK"]);

const fn ascending<const N: usize>(texts: [&str; N]) -> [ShortCode; N] {
    let mut codes = [0; N];
    let mut place = 0;
    while place < N {
        codes[place] = short(texts[place].as_bytes());
        assert!(place == 0 || codes[place - 1] < codes[place]);
        place += 1;
    }
    codes
}

pub fn is_site(code: ShortCode) -> bool {
    SITES.binary_search(&code).is_ok()
}

pub fn is_method(code: ShortCode) -> bool {
    METHODS.binary_search(&code).is_ok()
}
