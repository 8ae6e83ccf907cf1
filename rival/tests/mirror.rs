//! With the rival on both sides the comparisons must find nothing.
#![cfg(feature = "mirror")]

use rival::recordings::recordings;
use rival::sessions::sessions;

#[test]
fn the_rival_agrees_with_itself() {
    if let Err(what) = sessions(200, 1) {
        panic!("{what}");
    }
    if let Err(what) = recordings(400, 1) {
        panic!("{what}");
    }
}
