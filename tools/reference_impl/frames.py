"""The transport frame (RTCM 10403.3, section 4)."""

from hashlib import shake_128

GENERATOR = 0x1864CFB


def check_of(data: bytes) -> bytes:
    """Returns CRC-24Q: the remainder of the bits followed by 24 zero bits."""
    rest = 0
    for byte in data + bytes(3):
        for n in range(7, -1, -1):
            rest = rest << 1 | byte >> n & 1
            if rest >> 24:
                rest ^= GENERATOR
    return rest.to_bytes(3, "big")


def frame_of(message: bytes) -> bytes:
    front = b"\xd3" + len(message).to_bytes(2, "big") + message
    return front + check_of(front)


def frames_of_lengths(count: int) -> bytes:
    """Returns that number of frames, of messages of 0, 1, 2 .. bytes, each the first of the same random bytes."""
    random = shake_128(b"rtcm2rinex").digest(count)
    return b"".join(frame_of(random[:length]) for length in range(count))


def message_at(data: bytes, place: int) -> bytes | None:
    """Returns the message of the complete frame with a valid CRC that begins at this offset."""
    head = data[place : place + 3]
    if len(head) < 3 or head[0] != 0xD3:
        return None
    end = place + 6 + (head[1] % 4 * 256 + head[2])
    if end > len(data) or check_of(data[place : end - 3]) != data[end - 3 : end]:
        return None
    return data[place + 3 : end - 3]


def frames_of(data: bytes) -> list[tuple[int, bytes]]:
    """Returns the offsets and messages of the leftmost valid frames."""
    found, free_from = [], 0
    for place in range(len(data)):
        message = message_at(data, place) if place >= free_from else None
        if message is not None:
            found.append((place, message))
            free_from = place + 6 + len(message)
    return found


def decided_length(data: bytes) -> int:
    """Returns the least offset outside of a frame at which bytes of a frame may be missing, or the length."""
    free_from = 0
    for place in range(len(data)):
        if place < free_from or data[place] != 0xD3:
            continue
        head = data[place : place + 3]
        if len(head) < 3 or place + 6 + (head[1] % 4 * 256 + head[2]) > len(data):
            return place
        message = message_at(data, place)
        free_from = place + 1 if message is None else place + 6 + len(message)
    return len(data)
