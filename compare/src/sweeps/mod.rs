//! The inputs of `compare/run`: what is gone over whole, and random messages.

mod aggregate;
mod areas;
mod headers;
mod limits;
mod made;
mod messages;
mod moves;
mod routes;
mod rows;
mod streams;
mod texts;
mod values;
mod writes;
mod written;

use crate::cases::Bench;

/// What goes over some inputs whole.
type Sweep = fn(&mut Bench);

/// Everything that is gone over whole.
pub fn whole(bench: &mut Bench) {
    let sweeps: [(&str, Sweep); 11] = [
        ("short areas", areas::sweep),
        ("headers", headers::sweep),
        ("texts", texts::sweep),
        ("typed reading", values::sweep),
        ("writing", writes::sweep),
        ("routes", routes::sweep),
        ("moves", moves::sweep),
        ("rows", rows::sweep),
        ("RFC 3396's reading", aggregate::sweep),
        ("streams", streams::sweep),
        ("limits", limits::sweep),
    ];
    for (work, sweep) in sweeps {
        bench.progress.begin(work);
        sweep(bench);
    }
}

pub use messages::random;
