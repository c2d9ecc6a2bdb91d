"""The best of several shops' prices within 300 ms, with what had come by then; the audit is written whatever happens.

    python3 bindings/python/examples/fan_out.py
"""

import asyncio
import random

from balkreyn import ALL, scope, shielded, sleep


class NoPrice(Exception):
    """No shop answered in time."""


async def ask(shop: str) -> int:
    """Asks one shop: some are slow, some fail."""
    chance = random.Random(shop)
    await sleep(chance.choice([0.01, 0.05, 60]))
    if chance.random() < 0.2:
        raise ConnectionError(shop)
    return chance.randrange(800, 1000)


async def audit(shops: int, prices: list[int]) -> None:
    async with shielded():
        await sleep(0.01)
        print(f"audit: {len(prices)} of {shops} shops answered")


async def best(shops: list[str]) -> int:
    prices: list[int] = []

    async def one(shop: str) -> None:
        try:
            prices.append(await ask(shop))
        except ConnectionError as error:
            print(f"no price of {error}")

    async with scope(ALL, within=0.3, move_on=True) as s:
        for shop in shops:
            s.fork(one, shop)
        await s.join()
    await audit(len(shops), prices)
    if not prices:
        raise NoPrice
    return min(prices)


print("best", asyncio.run(best(["birch", "cedar", "elm", "larch", "maple", "oak"])))
