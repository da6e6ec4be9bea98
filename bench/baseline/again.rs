//! `again COUNT NAME=FILE ..` in plain Rust: opens and closes connections to fragments that are present.

mod container;
mod fill;
mod instructions;
mod loaded;
mod machine;
mod names;

use loaded::{Loaded, initialization, load};
use names::NameMap;

fn main() {
    let words: Vec<String> = std::env::args().skip(1).collect();
    let Some((connections, fragments, addresses)) = answer(&words) else {
        eprintln!("the fragments can't be loaded");
        std::process::exit(1)
    };
    println!("{connections} connections, {fragments} fragments, addresses {addresses}");
}

fn answer(words: &[String]) -> Option<(usize, usize, u64)> {
    let (count, pairs) = words.split_first()?;
    let count: usize = count.parse().ok()?;
    let files: Option<Vec<(&str, Vec<u8>)>> = pairs
        .iter()
        .map(|word| {
            let (name, path) = word.split_once('=')?;
            Some((name, std::fs::read(path).ok()?))
        })
        .collect();
    let files = files?;
    let mut context = Context::new(load(&files)?);
    let first = context.open(files.first()?.0)?;
    let (mut fragments, mut addresses) = (0, 0);
    for number in 0..count {
        let connection = context.open(files[number % files.len()].0)?;
        fragments += context.fragments(connection)?.len();
        addresses += u64::from(context.address(connection)?);
        context.close(connection)?;
    }
    context.close(first)?;
    Some((count, fragments, addresses))
}

/// An open connection: its fragments in closure order and in the order of initialization.
struct Open {
    root: usize,
    order: Vec<usize>,
    initialization: Vec<usize>,
}

/// Fragments in memory, and how many connections use each.
struct Context<'a> {
    loaded: Loaded<'a>,
    places: NameMap<'a>,
    users: Vec<u32>,
    connections: Vec<Option<Open>>,
}

impl<'a> Context<'a> {
    fn new(loaded: Loaded<'a>) -> Self {
        let mut places = NameMap::default();
        for (fragment, place) in loaded.fragments.iter().zip(0..) {
            places.entry(fragment.name.as_bytes()).or_insert(place);
        }
        let users = vec![0; loaded.fragments.len()];
        Context {
            loaded,
            places,
            users,
            connections: Vec::new(),
        }
    }

    fn open(&mut self, name: &str) -> Option<usize> {
        let root = *self.places.get(name.as_bytes())? as usize;
        let mut order = Vec::new();
        self.walk(&mut vec![false; self.users.len()], &mut order, root);
        let initialization = initialization(&self.loaded.fragments, &order)?;
        for place in &order {
            self.users[*place] += 1;
        }
        self.connections.push(Some(Open {
            root,
            order,
            initialization,
        }));
        Some(self.connections.len() - 1)
    }

    /// Libraries come before those that need them.
    fn walk(&self, met: &mut [bool], order: &mut Vec<usize>, place: usize) {
        met[place] = true;
        for bound in self.loaded.fragments[place].bound.iter().flatten() {
            if !met[*bound as usize] {
                self.walk(met, order, *bound as usize);
            }
        }
        order.push(place);
    }

    fn fragments(&self, connection: usize) -> Option<&[usize]> {
        let open = self.connections.get(connection)?.as_ref()?;
        Some(&open.initialization)
    }

    /// The address of the first section of a connection's root.
    fn address(&self, connection: usize) -> Option<u32> {
        let open = self.connections.get(connection)?.as_ref()?;
        Some(self.loaded.memory[open.root].first()?.address)
    }

    fn close(&mut self, connection: usize) -> Option<()> {
        let open = self.connections.get_mut(connection)?.take()?;
        for place in open.order {
            self.users[place] -= 1;
            if self.users[place] == 0 {
                self.loaded.memory[place].clear();
            }
        }
        Some(())
    }
}
