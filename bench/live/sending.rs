//! What a user would write instead: one thread reads all logs and sends every update over a socket of this machine, another
//! sums up each object's changes and prints the k greatest totals.
//!
//!     sending BATCH K OBJECTS LOG..
//!
//! An update takes 12 bytes, its object's number and its change. BATCH of them go in one write.
use std::collections::HashMap;
use std::io::{BufReader, Read, Write};
use std::net::{TcpListener, TcpStream};
use std::{env, fs, thread};

const BYTES: usize = 12;

/// Sends the changes of the logs, and closes the connection.
fn send(mut link: TcpStream, batch: usize, objects: &str, logs: &[String]) {
    let numbers: HashMap<&str, u32> = objects.lines().zip(0..).collect();
    let mut waiting = Vec::with_capacity(batch * BYTES);
    for log in logs {
        for line in fs::read_to_string(log).expect("a readable log").lines() {
            let (name, change) = line.rsplit_once(',').expect("NAME,CHANGE");
            waiting.extend_from_slice(&numbers[name].to_be_bytes());
            waiting.extend_from_slice(&change.parse::<i64>().expect("a whole number").to_be_bytes());
            if waiting.len() == batch * BYTES {
                link.write_all(&waiting).expect("a link");
                waiting.clear();
            }
        }
    }
    link.write_all(&waiting).expect("a link");
}

/// The totals of what comes until the connection is closed.
fn sum(link: TcpStream, objects: usize) -> Vec<i64> {
    let mut totals = vec![0; objects];
    let mut link = BufReader::with_capacity(1 << 16, link);
    let mut update = [0; BYTES];
    while link.read_exact(&mut update).is_ok() {
        let (number, change) = update.split_at(4);
        let number = u32::from_be_bytes(number.try_into().expect("4 bytes"));
        totals[number as usize] += i64::from_be_bytes(change.try_into().expect("8 bytes"));
    }
    totals
}

fn main() {
    let words: Vec<String> = env::args().skip(1).collect();
    let [batch, k, objects, logs @ ..] = words.as_slice() else { panic!("sending BATCH K OBJECTS LOG..") };
    let (batch, k): (usize, usize) = (batch.parse().expect("BATCH"), k.parse().expect("K"));
    let objects = fs::read_to_string(objects).expect("a readable catalogue");
    let door = TcpListener::bind("127.0.0.1:0").expect("a port");
    let link = TcpStream::connect(door.local_addr().expect("an address")).expect("a link");
    link.set_nodelay(true).expect("a link");
    let (other, _) = door.accept().expect("a link");
    let count = objects.lines().count();
    let totals = thread::scope(|scope| {
        scope.spawn(|| send(link, batch, &objects, logs));
        sum(other, count)
    });
    let mut ranked: Vec<_> = objects.lines().zip(totals).collect();
    ranked.sort_by(|a, b| b.1.cmp(&a.1).then(a.0.cmp(b.0)));
    let mut out = std::io::stdout().lock();
    for (name, total) in ranked.iter().take(k) {
        writeln!(out, "{total} {name}").expect("standard output");
    }
}
