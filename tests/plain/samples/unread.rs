use one::{FAR, Kept, NEAR, told};
use std::prelude::{Vec, println};

enum Told {
    /// It came.
    Came {
        client: u8,
    },
    Went,
    Read(bool),
    Count(u8),
    Seen {
        at: u8,
    },
    Late {
        at: u8,
    },
}

pub enum Shown {
    Here { file: u8 },
}

#[derive(PartialEq)]
enum Compared {
    Here { file: u8 },
}

struct Calls {
    told: Vec<Told>,
}

impl Calls {
    fn came(&mut self, client: u8) -> bool {
        self.push(Told::Came { client })
    }

    fn went(&mut self) -> bool {
        self.push(Told::Went)
    }

    fn again(&mut self, count: u8) -> bool {
        self.came(count) && self.went()
    }
}

fn client_of(told: &Told) -> Option<u8> {
    match told {
        Told::Came { client, .. } => Some(*client),
        Told::Went | Told::Read(true) => None,
        Told::Read(_) => None,
        Told::Count(0) => None,
        Told::Count(_) => Some(1),
        Told::Seen { at } => Some(*at),
    }
}

fn shown(shown: &Shown) -> u8 {
    match shown {
        Shown::Here { .. } => FAR,
    }
}

fn read() -> Told {
    Told::Read(client_of(&Told::Seen { at: 1 }) == None)
}

fn effect(file: u8) -> u8 {
    1
}

fn late(file: u8) -> Told {
    Told::Late { at: effect(file) }
}

fn lower(told: &Told, at: u8, limit: u8) -> u8 {
    let taken = take(told);
    match told {
        Told::Seen { at } if *at > 1 => limit,
        Told::Seen { .. } => 1,
        Told::Came { client, .. } => {
            let limit = *client;
            limit
        }
        _ => at,
    }
}

fn under(told: &Told) -> u8 {
    match told {
        Told::Came { client, .. } => *client,
        Told::Seen { .. } => 1,
        _ => 2,
    }
}

fn said(word: u8) {
    println!("{word}");
}

pub fn all(calls: &mut Calls, file: u8, text: &str) -> Result<u8, Compared> {
    effect(calls.count());
    late(file);
    read();
    shown(&Shown::Here { file });
    lower(&Told::Seen { at: 1 }, file, file);
    under(&Told::Seen { at: 1 });
    said(file);
    println!("{text}");
    calls.again(1);
    Err(Compared::Here { file })
}
