//! A page asks three shops, and shows the first price that comes within 300 milliseconds.

use balkreyn::{Context, Joiner, Options, Realm};
use std::error::Error;
use std::time::Duration;

type Any = Box<dyn Error + Send + Sync>;

/// Asks a shop, which stands for a call over the network.
fn ask(cx: &Context, shop: &str) -> Result<u32, Any> {
    let (answers_after, price) = match shop {
        "corner" => (5, Err("sold out")),
        "harbour" => (30, Ok(20)),
        _ => (5_000, Ok(12)),
    };
    cx.sleep(Duration::from_millis(answers_after))?;
    Ok(price?)
}

/// The first price that comes in time.
fn first_price(cx: &Context, shops: &[String]) -> Result<u32, Any> {
    cx.try_scope(Options::new(Joiner::Any).within(Duration::from_millis(300)), |s| {
        let offers = s.fork_all("shop", shops.iter().map(|shop| |cx: &Context| ask(cx, shop)))?;
        s.winner(offers)
    })
}

fn main() -> Result<(), Any> {
    let shops = ["corner", "harbour", "mountain"].map(String::from);
    let price = Realm::new()?.run(|cx| first_price(cx, &shops))?;
    println!("{price}");
    Ok(())
}
