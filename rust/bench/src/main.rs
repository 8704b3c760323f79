//! Times the port: leaves beside their Rust twins, singletons beside plain Rust with the same duties, merges
//! and verdicts beside the original, configs added to sets beside both. Both sides are called through a
//! boundary that is not inlined, turn by turn in one run, and the best round of each is compared.
mod doors;
mod heavy;
mod leaves;
mod merges;
mod plain;
mod rounds;
mod sets;
mod singletons;
mod verdicts;

const HELP: &str = "bench [leaves | singletons | merges | heavy | sets | verdicts]: times these, or all";

fn main() {
    let words: Vec<String> = std::env::args().skip(1).collect();
    match words.iter().map(String::as_str).collect::<Vec<_>>()[..] {
        [] => {
            leaves::time_all();
            singletons::time_all();
            merges::time_all();
            heavy::time_all();
            sets::time_all();
            verdicts::time_all();
        }
        ["leaves"] => leaves::time_all(),
        ["singletons"] => singletons::time_all(),
        ["merges"] => merges::time_all(),
        ["heavy"] => heavy::time_all(),
        ["sets"] => sets::time_all(),
        ["verdicts"] => verdicts::time_all(),
        _ => {
            eprintln!("{HELP}");
            std::process::exit(2);
        }
    }
}
