"""Client frames from operations, right ones and wrong ones (docs/PROTOCOL.md, "Client frames")."""


def of_version(version, body):
    """A frame of any version."""
    return (len(body) + 1).to_bytes(4, "big") + bytes([version]) + body


def request(tag, fields=b""):
    """A frame of version 1, with its tag and its fields."""
    return of_version(1, bytes([tag]) + fields)


BEGIN, COMMIT, STRONG, ABANDON, BARRIER, TOKEN = (request(tag) for tag in (1, 3, 4, 5, 6, 7))
WITH_VALUE = (2, 6, 7, 8, 13)
# the codes of each kind's operations, as often as they are drawn
CODES = {
    "register": (1, 2, 2),
    "counter": (3, 4, 4),
    "set": (5, 5, 6, 7, 7, 7, 8, 8),
    "flag": (9, 9, 10, 10, 11),
    "multi": (12, 12, 13, 13, 13),
}


def item_bytes(item):
    return bytes([item[0], len(item[1])]) + item[1]


def operation_bytes(operation):
    code = bytes([operation[0]])
    if operation[0] in WITH_VALUE:
        return code + len(operation[1]).to_bytes(2, "big") + operation[1]
    if operation[0] == 4:
        return code + operation[1].to_bytes(8, "big", signed=True)
    return code


def perform(item, operation):
    return request(2, item_bytes(item) + operation_bytes(operation))


def bytes_line(session, *frames):
    """The line with which a session's client sends these frames."""
    return "bytes 1 1 %d %s" % (session, b"".join(frames).hex())
