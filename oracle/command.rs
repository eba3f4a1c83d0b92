//! The words of a command line, for the driver and the bench.

pub fn words() -> Vec<String> {
    std::env::args().skip(1).collect()
}

pub fn number(text: &str) -> u64 {
    text.parse().unwrap_or_else(|_| {
        eprintln!("not a number: {text}");
        std::process::exit(2);
    })
}
