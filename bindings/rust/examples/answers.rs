//! What the calls answer for each line of a file of expressions, as bindings/tests/program.py prints it.

use std::{env, error::Error, fs};

fn main() -> Result<(), Box<dyn Error>> {
    let file = env::args().nth(1).ok_or("which file?")?;
    for (index, line) in fs::read_to_string(file)?.lines().enumerate() {
        let line = line.replace('¶', "\n");
        let texts: Vec<&str> = line.split('\t').collect();
        let (expression, schema, records, statistics) = match texts[..] {
            [expression, schema, records, statistics] => (expression, schema, records, statistics),
            _ => return Err("a line hasn't four texts".into()),
        };
        let answers = [
            ("fmt", vx::fmt(expression).map(|page| page + "\n")),
            (
                "check",
                vx::check(expression, schema).map(|page| page + "\n"),
            ),
            ("plan", vx::plan_json(expression, schema)),
            ("explain", vx::explain(expression, schema)),
            ("eval", vx::eval_json(expression, schema, records)),
            ("prune", vx::prune(expression, schema, statistics)),
        ];
        for (call, answer) in answers {
            match answer {
                Ok(page) => print!("# {} {call} answered\n{page}", index + 1),
                Err(error) => print!("# {} {call} stopped\n{error}\n", index + 1),
            }
        }
    }
    Ok(())
}
