//! The readers of all ports together.

use crate::lines::{self, Fields};
use crate::number;
use crate::{comlynx, drives, eversolar, fronius, Reading};

/// "one reader a port". The families stand in the paper's order: ComLynx on port 1 (case L1),
/// Eversolar on 2, Fronius on 3; drives on "a fourth port" (document 02, Req 04).
#[derive(Clone)]
pub struct Ports {
    pub comlynx: comlynx::State,
    pub eversolar: eversolar::State,
    pub fronius: fronius::State,
    pub drives: drives::State,
}

pub fn fresh() -> Ports {
    Ports {
        comlynx: comlynx::fresh(),
        eversolar: eversolar::fresh(),
        fronius: fronius::fresh(),
        drives: drives::fresh(),
    }
}

/// One call of the reader of a port: 1 to 4, else 12, whatever else.
pub fn read(ports: &mut Ports, port: u8, piece: &[u8], lent: &mut [u8]) -> Reading<Fields> {
    match port {
        1 => as_fields(comlynx::read(&mut ports.comlynx, piece, lent), lines::of_comlynx),
        2 => as_fields(eversolar::read(&mut ports.eversolar, piece, lent), lines::of_eversolar),
        3 => as_fields(fronius::read(&mut ports.fronius, piece, lent), lines::of_fronius),
        4 => as_fields(drives::read(&mut ports.drives, piece, lent), lines::of_drives),
        _ => Reading { number: number::WRONG_PORT_OR_COUNT, used: 0, lost: 0, message: None },
    }
}

fn as_fields<M>(reading: Reading<M>, fields: fn(&M) -> Fields) -> Reading<Fields> {
    let Reading { number, used, lost, message } = reading;
    Reading { number, used, lost, message: message.as_ref().map(fields) }
}
