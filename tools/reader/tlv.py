"""Data objects: a tag, a length in its shortest form, a value. DER is made of the same."""


class NotObjects(ValueError):
    """The bytes are no list of data objects."""


def put(tag, *values):
    """The object of this tag whose value is these pieces."""
    value = b"".join(values)
    return number(tag) + length(len(value)) + value


def number(value):
    """A number that is not negative, in as few bytes as hold it."""
    return value.to_bytes(max(1, (value.bit_length() + 7) // 8), "big")


def length(size):
    return number(size) if size < 0x80 else bytes([0x80 + len(number(size))]) + number(size)


def read(data):
    """The objects of a list, as pairs of tag and value."""
    objects = []
    while data:
        tag, value, data = first(data)
        objects.append((tag, value))
    return objects


def find(data, *tags):
    """The value of the first object with the first tag, of the one with the second tag in it, and so on."""
    for tag in tags:
        found = [value for name, value in read(data) if name == tag]
        if not found:
            raise NotObjects(f"no object {tag:X}")
        data = found[0]
    return data


def first(data):
    """Tag and value of the first object, and the bytes behind it."""
    size = 2 if data[0] & 0x1F == 0x1F else 1
    tag, rest = int.from_bytes(data[:size], "big"), data[size:]
    if not rest:
        raise NotObjects("an object ends in its tag")
    count, rest = rest[0], rest[1:]
    if count >= 0x80:
        places = count - 0x80
        count, rest = int.from_bytes(rest[:places], "big"), rest[places:]
    if len(rest) < count:
        raise NotObjects("an object is longer than what is there")
    return tag, rest[:count], rest[count:]


def oid(text):
    """The bytes of an object identifier that is written with points."""
    head, second, *others = (int(part) for part in text.split("."))
    return bytes([40 * head + second]) + b"".join(map(base128, others))


def base128(value):
    digits = [value & 0x7F]
    while value := value >> 7:
        digits.append(0x80 | value & 0x7F)
    return bytes(reversed(digits))
