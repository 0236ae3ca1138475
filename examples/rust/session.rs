//! Document 01's session: thirteen steps, a line for each reply.

use take_ledger::{Session, Step, Unfit, Volume};

fn main() -> Result<(), Unfit> {
    let list = [
        Step::root(7),
        Step::root(8),
        Step::letter(0, 5)?,
        Step::receive(0),
        Step::write(0, 9)?,
        Step::send(0, 1, 9)?,
        Step::receive(1),
        Step::write(1, 10)?,
        Step::freeze(1)?,
        Step::sign(Volume::of([1])?),
        Step::freeze(0)?,
        Step::sign(Volume::of([0, 1])?),
        Step::fail(0)?,
    ];
    for (i, r) in Session::new().run(&list).iter().enumerate() {
        println!("{} {} {} {} {}", i + 1, r.number(), r.take(), r.parcel(), r.text());
    }
    Ok(())
}
