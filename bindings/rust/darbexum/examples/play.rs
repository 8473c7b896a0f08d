//! Plays a trace and prints the output's datagrams: `play CONFIG < TRACE`.
use std::io::{self, BufRead};

fn main() -> Result<(), Box<dyn std::error::Error>> {
    let config = std::fs::read(std::env::args().nth(1).ok_or("play CONFIG < TRACE")?)?;
    let mut engine = darbexum::Engine::new(config)?;
    // An engine may go to another thread, so this one does.
    std::thread::spawn(move || play(&mut engine).map_err(|error| error.to_string())).join().expect("no panic")?;
    Ok(())
}

fn play(engine: &mut darbexum::Engine) -> Result<(), Box<dyn std::error::Error>> {
    for line in io::stdin().lock().lines() {
        let line = line?;
        let mut words = line.split(' ');
        match words.next() {
            Some("tick") => print(engine.turn(words.next().ok_or("no reading")?.parse()?))?,
            Some("close") => print(engine.close()?)?,
            Some(path @ ("a" | "b" | "c" | "d")) => {
                let stream = words.next().ok_or("no stream")?.parse()?;
                let octets = octets_of(words.next().unwrap_or(""))?;
                engine.arrive(stream, path.as_bytes()[0] - b'a', &octets)?;
            }
            _ => {}
        }
    }
    Ok(())
}

fn print(mut datagrams: darbexum::Datagrams<'_>) -> Result<(), darbexum::Error> {
    while let Some(datagram) = datagrams.next()? {
        let text: String = datagram.iter().map(|octet| format!("{octet:02x}")).collect();
        println!("out {text}");
    }
    Ok(())
}

fn octets_of(hex: &str) -> Result<Vec<u8>, std::num::ParseIntError> {
    (0..hex.len() / 2).map(|at| u8::from_str_radix(&hex[2 * at..2 * at + 2], 16)).collect()
}
