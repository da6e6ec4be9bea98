//! The loop of an emulator, in some forty lines: an application opens a plug-in while it runs, and closes it again. Its processor only says
//! what it enters.

use pef::{Connection, Context, Error};

/// The machine: its memory, and the fragments in it.
struct Machine<'a> {
    memory: Vec<u8>,
    context: Context<'a>,
    open: Vec<Connection<'a>>,
}

impl<'a> Machine<'a> {
    /// Opens a fragment: what is new is copied and initialized. What was present may have run since, and stays as it is.
    fn open(&mut self, name: &str) -> Result<Option<u32>, Error> {
        let connection = self.context.prepare(name)?;
        for section in connection.new_fragments().flat_map(|it| it.sections()) {
            section.copy_to(&mut self.memory[section.address() as usize..])?;
        }
        for fragment in connection.new_fragments() {
            self.run("init", fragment.entries().init);
        }
        let main = connection.root().entries().main;
        self.open.push(connection);
        Ok(main)
    }

    /// Closes the fragment that was opened last: what nobody needs any more is terminated before.
    fn close(&mut self) -> Result<(), Error> {
        if let Some(connection) = self.open.pop() {
            for fragment in connection.released()? {
                self.run("term", fragment.entries().term);
            }
            connection.close()?;
        }
        Ok(())
    }

    /// Here a processor follows the transition vector: the addresses of the code and of its data.
    fn run(&self, what: &str, vector: Option<u32>) {
        if let Some(at) = vector {
            let word = |at: u32| self.memory[at as usize..][..4].iter().fold(0, |sum, byte| sum << 8 | u32::from(*byte));
            println!("{what} at {:08X} with {:08X}", word(at), word(at + 4));
        }
    }
}

const APP: &str = "section code code global 4 16
section data data process 4 16
bytes data 00000000000000000000000800000000
tvector data 0 code data
tvector data 8 code data
main data 0
init data 8
";
const PLUG_IN: &str = "section code code global 4 8
section data data process 4 16
bytes data 00000000000000000000000400000000
tvector data 0 code data
tvector data 8 code data
main data 0
term data 8
";

fn main() -> Result<(), Box<dyn std::error::Error>> {
    let (app, plug_in) = (pef::link(APP)?, pef::link(PLUG_IN)?);
    let mut machine = Machine { memory: vec![0; 0x20000], context: Context::new()?, open: Vec::new() };
    machine.context.add("App", &app)?;
    machine.context.add("Plug-in", &plug_in)?;
    for name in ["App", "Plug-in"] {
        let main = machine.open(name)?;
        machine.run("main", main);
    }
    machine.close()?;
    machine.close()?;
    Ok(())
}
