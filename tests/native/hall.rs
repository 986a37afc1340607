//! The hall program on the plain reading of the papers, for comparison with the one that is built from the library:
//! reads standard input and prints what that one must print.

#[allow(dead_code)]
mod reference;

use reference::{read_operation, Reply, Sheet};
use std::io::{Read, Write};

fn report(reply: Reply) -> String {
    match reply {
        Reply::Done { carried, thrown } => format!("done\t{carried}\t{thrown}\t0"),
        Reply::Waits => "waits\t0\t0\t0".into(),
        Reply::Known => "known\t0\t0\t0".into(),
        Reply::Refused(n) => format!("refused\t0\t0\t{n}"),
    }
}

/// Everything that is printed on the input.
fn printed(input: &[u8]) -> String {
    let mut sheet = Sheet::empty(16);
    let mut out = String::new();
    for (k, line) in input.split_inclusive(|b| *b == b'\n').enumerate() {
        let reply = match read_operation(line) {
            Ok(o) => sheet.receive(&o),
            Err(n) => Reply::Refused(n),
        };
        out += &format!("{}\t{}\n", k + 1, report(reply));
    }
    let shown: Vec<_> = sheet.rows.iter().filter(|r| r.shown()).collect();
    out += &format!("T\t{}", shown.len());
    for r in shown {
        out += &format!("\t{}", r.insert.code);
    }
    out + "\n"
}

fn main() -> std::io::Result<()> {
    let mut input = Vec::new();
    std::io::stdin().take(65536).read_to_end(&mut input)?;
    std::io::stdout().write_all(printed(&input).as_bytes())
}
