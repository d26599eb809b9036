"""Makes an input on which two programs differ smaller."""
import time


def shrunk(text, differs, seconds=60):
    """A text with fewer lines of which `differs` still holds, as small as it gets in so many seconds."""
    end = time.monotonic() + seconds
    lines = text.split(b"\n")
    count = max(1, len(lines) // 2)
    while time.monotonic() < end:
        fewer = without(lines, count, differs, end)
        if fewer == lines and count == 1:
            break
        if fewer == lines:
            count = max(1, count // 2)
        lines = fewer
    return b"\n".join(lines)


def without(lines, count, differs, end):
    """The lines without each group of `count` of them that isn't needed."""
    place = 0
    while place < len(lines) and time.monotonic() < end:
        fewer = lines[:place] + lines[place + count :]
        if differs(b"\n".join(fewer)):
            lines = fewer
        else:
            place += count
    return lines
