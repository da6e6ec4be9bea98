//! Links a script: `link SCRIPT OUT`. An error is shown with its line and a mark.

fn main() -> Result<(), Box<dyn std::error::Error>> {
    let words: Vec<String> = std::env::args().skip(1).collect();
    let (script, out) = match &words[..] {
        [script, out] => (script, out),
        _ => return Err("usage: link SCRIPT OUT".into()),
    };
    match pef::link(&std::fs::read(script)?) {
        Ok(bytes) => std::fs::write(out, bytes)?,
        Err(error) => {
            eprintln!("{script}: {error}\n{}\n{}", error.help(), error.mark());
            std::process::exit(1);
        }
    }
    Ok(())
}
