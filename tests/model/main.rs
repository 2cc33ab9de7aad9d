//! The driver with the model it compares.

use std::process::ExitCode;

fn main() -> ExitCode {
    let model = driver::Model { session: paper::probe::session, listing: paper::listing::listing };
    driver::run(model, std::env::args().skip(1))
}
