//! A page asks three shops, and shows the first price that comes within 300 milliseconds.

use balkreyn_tokio::{Cancelled, Context, Intake, Joiner, Need, Options, Refusal};
use std::time::Duration;
use tokio::time::sleep;

#[derive(Debug)]
enum Fault {
    SoldOut,
    Scope(Refusal),
}

impl From<Refusal> for Fault {
    fn from(refusal: Refusal) -> Fault {
        Fault::Scope(refusal)
    }
}

impl From<Cancelled> for Fault {
    fn from(cancelled: Cancelled) -> Fault {
        Fault::Scope(Refusal::Cancelled(cancelled))
    }
}

/// Asks a shop, which stands for a call over the network. It knows of no scope: a cancel drops it at its await.
async fn ask(shop: String) -> Result<u32, Fault> {
    let (answers_after, price) = match &*shop {
        "corner" => (5, Err(Fault::SoldOut)),
        "harbour" => (30, Ok(20)),
        _ => (5_000, Ok(12)),
    };
    sleep(Duration::from_millis(answers_after)).await;
    price
}

/// The first price that comes in time.
async fn first_price(cx: &Context, shops: &[String]) -> Result<u32, Fault> {
    cx.try_scope(Options::new(Joiner::Any).within(Duration::from_millis(300)), async |s| {
        let offers = s.fork_all("shop", shops.iter().cloned().map(ask))?;
        s.winner(offers).await
    })
    .await
}

#[tokio::main]
async fn main() -> Result<(), Refusal> {
    let (intake, shops) = (Intake::new(), ["corner", "harbour", "mountain"].map(String::from));
    match intake.run(Need::new(1, 3), async |cx| first_price(cx, &shops).await).await? {
        Ok(price) => println!("{price}"),
        Err(Fault::SoldOut) => println!("sold out"),
        Err(Fault::Scope(refusal)) => println!("no price: {refusal}"),
    }
    intake.quiet().await;
    Ok(())
}
