//! A thread that owns a surface: others print on it, and ask it for answers, by channels.
//! `cargo run --example owner`

use std::error::Error;
use std::sync::mpsc::{channel, Receiver, Sender};
use std::thread;
use tikeburo::{Ask, Client, Surface};

/// What others want of the surface.
enum Request {
    Print(String),
    Respond(Ask, Sender<Result<Vec<u8>, tikeburo::Error>>),
}

/// Makes the surface, which stays here, and ends once nobody can want anything.
fn own(requests: Receiver<Request>) -> Result<(), tikeburo::Error> {
    let mut surface = Surface::new(20, 2)?;
    for request in requests {
        match request {
            Request::Print(text) => drop(surface.add_change(text)?),
            Request::Respond(ask, reply) => {
                let _ = reply.send(surface.respond(&ask)); // who asked may be gone
            }
        }
    }
    Ok(())
}

/// Brings a client, which is on the thread that calls this, to what the surface shows.
fn update(client: &mut Client, owner: &Sender<Request>) -> Result<(), Box<dyn Error>> {
    let (reply, answer) = channel();
    owner.send(Request::Respond(client.ask()?, reply))?;
    client.feed(&answer.recv()??)?;
    Ok(())
}

fn main() -> Result<(), Box<dyn Error>> {
    let (owner, requests) = channel();
    let surface = thread::spawn(move || own(requests));
    let printer = owner.clone();
    thread::spawn(move || printer.send(Request::Print("hello か\r\n".into())).unwrap())
        .join()
        .unwrap();
    let mut client = Client::new()?;
    update(&mut client, &owner)?;
    owner.send(Request::Print("same screen".into()))?;
    update(&mut client, &owner)?;
    assert_eq!(client.screen().row(1).text()?.trim_end(), "same screen");
    print!("{}", client.screen());
    drop(owner);
    Ok(surface.join().unwrap()?)
}
