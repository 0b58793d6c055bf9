"""The request that posts a chunk, as docs/FORMATS.md says."""
HEAD = "POST /chukwa HTTP/1.1\r\nHost: c1\r\nContent-Length: {}\r\n\r\n"


def text(word):
    return len(word).to_bytes(2, "big") + word.encode()


def post(name, number, size=100):
    """The request to post bytes of a log from that number on."""
    key = b"\x01" + (number * size + size).to_bytes(8, "big") + text("h1") + text("Log") + text(f"/{name}.log")
    body = b"\0\0\0\x01" + len(key).to_bytes(4, "big") + key + size.to_bytes(4, "big") + b"x" * size
    return HEAD.format(len(body)).encode() + body
