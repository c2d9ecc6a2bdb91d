//! Ten thousand items, eight at a time; the second time one fails, which ends the others.

use balkreyn::{Context, Realm};
use std::error::Error;
use std::time::{Duration, Instant};

type Any = Box<dyn Error + Send + Sync>;

fn main() -> Result<(), Any> {
    let micros = if std::env::args().count() > 1 { 1000 } else { 0 };
    for bad in [u64::MAX, 5_000] {
        let began = Instant::now();
        let square = |cx: &Context, item| {
            cx.sleep(Duration::from_micros(micros))?;
            if item == bad { Err(Any::from(format!("item-{item}"))) } else { Ok(item * item) }
        };
        match Realm::new()?.run(|cx| cx.map_at_most(8, 0..10_000, square)) {
            Ok(values) => println!("{} values, the last {:?}", values.len(), values.last()),
            Err(error) => println!("failed: {error}"),
        }
        println!("{:?}", began.elapsed());
    }
    Ok(())
}
