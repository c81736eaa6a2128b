//! Plans the loom of the net whose record a file holds, and prints it in the
//! program's form.
//!
//! ```text
//! cargo run --example plan -- ../../examples/net-a.record
//! ```

use std::env;
use std::error::Error;
use std::fs;

fn main() -> Result<(), Box<dyn Error>> {
    let path = env::args().nth(1).ok_or("usage: plan FILE")?;
    let record = fs::read(path)?;
    match droverboot::plan(&record) {
        Ok(plan) => print!("{plan}"),
        Err(refusal) => {
            println!("{}", refusal.line());
            eprintln!("{refusal}");
        }
    }
    Ok(())
}
