//! The turns between the two kinds of image, against the reference.

use crate::tally::Tally;
use crate::{landed_images, turn_books, turn_edges, turn_images, turn_lists};

pub fn run(tally: &mut Tally) {
    landed_images::run(tally);
    turn_edges::run(tally);
    turn_images::run(tally);
    turn_books::run(tally);
    turn_lists::run(tally);
}
