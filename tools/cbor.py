"""Where the parts of a CBOR value stand. It reads no value but lengths, and numbers that are keys
of maps."""

from tools.shapes import NotKnown


def head(data, at):
    """The kind of the item at a place, its number (none of an item without a stated length), and where its content begins."""
    if at >= len(data):
        raise NotKnown("CBOR that ends too early")
    kind, low = data[at] >> 5, data[at] & 31
    if low < 24:
        return kind, low, at + 1
    if low == 31 and kind in (2, 3, 4, 5):
        return kind, None, at + 1
    if low > 27:
        raise NotKnown(f"CBOR with the byte {data[at]:#x} at {at}")
    width = 1 << (low - 24)
    return kind, int.from_bytes(data[at + 1 : at + 1 + width], "big"), at + 1 + width


def parts(data, at):
    """The places of the items of an array or of a map (keys and values), and the end of all."""
    kind, number, at = head(data, at)
    if kind == 6:
        return parts(data, at)
    found, left = [], None if number is None else number * (2 if kind == 5 else 1)
    while left != 0 and not (left is None and data[at : at + 1] == b"\xff"):
        after = end(data, at)
        found.append((at, after))
        at, left = after, None if left is None else left - 1
    return found, at + (left is None)


def end(data, at):
    """Where the item at a place ends."""
    kind, number, after = head(data, at)
    if kind in (0, 1, 7):
        return after
    if kind == 6:
        return end(data, after)
    if kind in (2, 3) and number is not None:
        return after + number
    return parts(data, at)[1]


def sizes_of(data):
    """The size of a transaction, as its fee goes by it: without the byte of validity; and the bytes of its outputs and of its collateral return."""
    whole, after = parts(data, 0)
    if len(whole) != 4 or after != len(data):
        raise NotKnown("CBOR that is no transaction of four parts")
    body = parts(data, whole[0][0])[0]
    fields = {head(data, key)[1]: value for (key, _), (value, _) in zip(body[::2], body[1::2])}
    outputs = [stop - start for start, stop in parts(data, fields[1])[0]] if 1 in fields else []
    returned = end(data, fields[16]) - fields[16] if 16 in fields else None
    return len(data) - 1, outputs, returned
