//! server [--tell] ADDRESS: serves registries, as the server of C++ does, but to one client after the other.
use peers::objects::want_told;
use peers::peer::{path_in, serve};
use std::error::Error;
use std::os::unix::net::UnixListener;
use std::process::ExitCode;

fn run(address: &str, tells: bool) -> Result<(), Box<dyn Error>> {
    let listener = UnixListener::bind(path_in(address)?)?;
    println!("listening");
    if !tells {
        loop {
            serve(&listener.accept()?.0, || ())?;
        }
    }
    want_told(true);
    serve(&listener.accept()?.0, || {
        println!("client gone");
        want_told(false);
    })?;
    Ok(())
}

fn main() -> ExitCode {
    let words: Vec<String> = std::env::args().skip(1).collect();
    let ran = match words.iter().map(String::as_str).collect::<Vec<_>>()[..] {
        ["--tell", address] => run(address, true),
        [address] => run(address, false),
        _ => Err("usage: server [--tell] unix:PATH".into()),
    };
    match ran {
        Ok(()) => ExitCode::SUCCESS,
        Err(error) => {
            eprintln!("{error}");
            ExitCode::FAILURE
        }
    }
}
