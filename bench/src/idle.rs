//! Walks without gates, of as many visits as a sheet may have: giving up at 16,001 variables does not shorten them.

use crate::translation::translate;
use reference::idle_walks::sheets;
use reference::sheet::visits;
use std::time::Instant;

/// The height of the towers, with which the sheets stay below 200 nodes.
const TOWER: usize = 140;

/// Counting, once for each sheet, in seconds.
pub fn walks() {
    for (name, sheet) in sheets(TOWER, 1_000_000) {
        let bytes = sheet.bytes();
        let start = Instant::now();
        let ours = library::count(&bytes);
        let one = start.elapsed().as_secs_f64();
        let start = Instant::now();
        let rust = translate(&sheet, &mut []);
        let other = start.elapsed().as_secs_f64();
        assert_eq!(ours, rust);
        let (visits, ratio) = (visits(&sheet), one / other);
        println!(
            "walk without gates, {name}: {visits} visits, library {one:.2} s, Rust {other:.2} s, ratio {ratio:.2}"
        );
    }
}
