//! Turretmedlar's jobs through its static library beside the plain Rust model: times and instructions of a call, as one table; and ranks and uneven codes beside programs
//! that work out nothing else.
mod benchmarks;
mod by_mask;
mod by_table;
mod counting;
mod pair;
mod plain;
mod ranks;
mod stack;
mod sub_problems;
mod table;
mod timing;
mod uneven;

use benchmarks::JOBS;
use pair::SIDES;
use uneven::UNEVEN;

fn main() {
    let words: Vec<String> = std::env::args().skip(1).collect();
    let words: Vec<&str> = words.iter().map(String::as_str).collect();
    let number = |word: &str| word.parse::<usize>().expect("a number");
    match words[..] {
        [] => table::print(&JOBS),
        [word] if word == UNEVEN.word => table::print(&UNEVEN),
        [counting::COUNT, word, index, side, passes] => {
            let list = [JOBS, UNEVEN].into_iter().find(|list| list.word == word).expect("a list");
            let mut pair = ((list.benchmarks)()[number(index)].build)();
            pair.run(SIDES[number(side)], number(passes));
        }
        [ranks::RANKS] => ranks::print(),
        [ranks::RANKS, index, passes] => ranks::run(number(index), number(passes)),
        [stack::STACK] => stack::print(),
        [stack::STACK, index, size] => stack::run(number(index), number(size)),
        _ => {
            eprintln!("usage: bench [ranks | uneven | stack]");
            std::process::exit(2);
        }
    }
}
