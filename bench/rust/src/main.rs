//! Times the library beside the original and its peers, in one process, and prints the tables of `docs/SPEED.md`.
//!
//!     bench PASSES [WORD]     with a word, only those rows of the first table whose name holds it

mod original;
mod peer_table;
mod peers;
mod plurals;
mod shared;
mod sizes;
mod table;

fn main() {
    let arguments: Vec<String> = std::env::args().collect();
    let passes = arguments[1].parse().expect("a number of passes");
    let word = arguments.get(2).map_or("", String::as_str);
    table::print(passes, word);
    if word.is_empty() {
        // bigdecimal panics if it has no result.
        let hook = std::panic::take_hook();
        std::panic::set_hook(Box::new(move |info| {
            if !info.location().is_some_and(|place| place.file().contains("bigdecimal")) {
                hook(info);
            }
        }));
        println!();
        sizes::print();
        println!();
        peer_table::print(passes);
        println!();
        peer_table::print_answers();
        println!();
        plurals::print(passes);
        println!();
        plurals::print_differences();
        println!();
        plurals::print_remainders(passes);
        println!("\nlibmpdec {}", peers::python(&["version"]).unwrap_or_default());
    }
}
