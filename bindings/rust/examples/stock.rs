//! Stock that threads move from shelf to shelf: `cargo run --example stock`.
//!
//! Each shelf is a node with the number of its pieces. A thread holds a node while it accesses it, and the nodes above
//! as long as the settled plan says. Nobody takes locks in an order of his own, and nobody waits in a circle.

use pickbracken::{Error, Locks, Stopped};
use std::thread;

const SHELVES: [&str; 4] = ["/north/a", "/north/b", "/south/a", "/south/b"];
const PIECES: u32 = 100;
const MOVES: usize = 1_000;

/// There is no piece to take.
struct Empty;

fn main() -> Result<(), Error> {
    let above = [("/", 20), ("/north", 5), ("/south", 5)];
    let weights = above.into_iter().chain(SHELVES.map(|shelf| (shelf, 1)));
    let stock = Locks::new(weights, |_path| PIECES)?;
    thread::scope(|scope| {
        let threads = [0, 1, 2, 3].map(|number| {
            let (stock, shelves) = (&stock, [SHELVES[number], SHELVES[(number + 1) % 4]]);
            scope.spawn(move || move_pieces(stock, shelves))
        });
        threads
            .into_iter()
            .try_for_each(|it| it.join().expect("no thread panics"))
    })?;
    let left = stock.run(&stock.list(SHELVES)?, |_, pieces| *pieces)?;
    let sum: u32 = left.iter().sum();
    println!("{} moves, and the shelves hold {sum}", 4 * MOVES);
    Ok(())
}

/// Moves one piece after the other from a shelf to another one.
fn move_pieces(stock: &Locks<u32>, shelves: [&str; 2]) -> Result<(), Error> {
    let list = stock.list(shelves)?;
    let mut moved = 0;
    while moved < MOVES {
        match stock.try_run(&list, move_one) {
            Ok(_) => moved += 1,
            // Nothing was done before the first access: the move may be tried again.
            Err(Stopped::Call { .. }) => thread::yield_now(),
            Err(Stopped::Locks(why)) => return Err(why),
        }
    }
    Ok(())
}

/// The first access takes a piece, if there is one, and the second puts it down.
fn move_one(access: usize, pieces: &mut u32) -> Result<(), Empty> {
    *pieces = match access {
        0 => pieces.checked_sub(1).ok_or(Empty)?,
        _ => *pieces + 1,
    };
    Ok(())
}
