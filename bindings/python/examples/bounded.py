"""A map of many items, eight at once; the first failure cancels the rest.

    python3 bindings/python/examples/bounded.py
"""

import asyncio

from balkreyn import bounded_map, retry, sleep


async def fetch(page: int) -> int:
    await sleep(0.001)
    return page * page


async def main() -> int:
    return sum(await bounded_map(lambda page: retry(lambda: fetch(page), 3), range(1000), 8))


print(asyncio.run(main()))
