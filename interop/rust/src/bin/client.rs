//! client ADDRESS SCENARIO: plays a scenario with the registry that is served there, and ends with status 0 where all was as it has to be.
//! client ADDRESS soak SEED: plays a drawn conversation. client: lists the scenarios.
use capnp::Error;
use peers::peer::connect;
use peers::scenarios::{SCENARIOS, play};
use peers::soak::soak;
use peers::tasks::{run, within};
use std::process::ExitCode;

async fn played(address: &str, name: &str) -> Result<(), Error> {
    let scenario = SCENARIOS.iter().find(|scenario| scenario.0 == name);
    let (_, scenario) = scenario.ok_or_else(|| Error::failed("no such scenario".into()))?;
    within(30, play(*scenario, connect(address)?)).await
}

async fn drawn(address: &str, seed: &str) -> Result<(), Error> {
    let seed = seed.parse().map_err(|_| Error::failed("a seed is a number".into()))?;
    within(30, play(async |registry| soak(registry, seed).await, connect(address)?)).await
}

fn main() -> ExitCode {
    let words: Vec<String> = std::env::args().skip(1).collect();
    let ended = match &words[..] {
        [address, name] => run(played(address, name)),
        [address, _, seed] => run(drawn(address, seed)),
        _ => {
            SCENARIOS.iter().for_each(|scenario| println!("{}", scenario.0));
            Ok(())
        }
    };
    match ended {
        Ok(()) => ExitCode::SUCCESS,
        Err(error) => {
            eprintln!("{error}");
            ExitCode::FAILURE
        }
    }
}
