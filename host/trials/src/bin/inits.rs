//! Prints our Inits in the published form: `cargo run --release --bin inits > ../tests/published/inits.txt`.

use trials::inits;
use trials::under_test::UnderTest;

fn main() {
    print!("{}", inits::text(&UnderTest));
}
