// The oracle for the port of the trailing stops: writes what the published functions answer.

use published::orderbook;

fn main() {
    let words: Vec<String> = std::env::args().skip(1).collect();
    let words: Vec<&str> = words.iter().map(String::as_str).collect();
    let done = match words.as_slice() {
        ["check"] => orderbook::check::run(),
        [seed, count] => match (seed.parse(), count.parse()) {
            (Ok(seed), Ok(count)) => orderbook::driver::run(seed, count),
            _ => usage(),
        },
        _ => usage(),
    };
    if let Err(message) = done {
        eprintln!("oracle: {message}");
        std::process::exit(1);
    }
}

fn usage() -> Result<(), String> {
    Err("usage: oracle SEED COUNT, or oracle check".to_string())
}
