"""Stores of many lengths, into which the first sector of chunk after chunk is written, or the whole chunk, until that fails."""


def experiments():
    return [it for chunk in (1, 2, 4, 8, 16) for length in lengths(chunk) for it in writes(chunk, length)]


def lengths(chunk):
    """One sector around the last place of small stores, and of those in which an area ends."""
    entries = 32 * chunk
    found = {(2 + places) * chunk + more for places in range(4) for more in (-1, 0, 1, chunk // 2)}
    if chunk <= 8:
        found |= {(2 + places) * chunk + more for places in range(entries - 1, entries + 4) for more in (-1, 0, 1)}
    if chunk == 1:
        found |= set(range(1, 44)) | set(range(64, 74))
    return sorted(it for it in found if it > 0)


def writes(chunk, length):
    count = max(4, min(length // chunk + 2, 64 * chunk + 8))
    for how in ("first", "whole") if chunk > 1 and length % 3 == 0 else ("first",):
        yield {"name": "c%d-l%d-%s" % (chunk, length, how), "chunk": chunk, "len": length, "how": how, "chunks": count}
