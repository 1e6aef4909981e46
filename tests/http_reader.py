"""A reader of HTTP written from docs/FORMATS.md alone: the messages of a whole input, and the one answer in some bytes."""

import re

TOKEN = rb"[!#$%&'*+\-.^_`|~0-9A-Za-z]+"
LINE_END = rb"\r?\n"
VALUE = rb"[\t\x20-\x7e\x80-\xff]*"
FIELD = re.compile(rb"(" + TOKEN + rb"):(" + VALUE + rb")" + LINE_END)
FIELDS = rb"((?:" + TOKEN + rb":" + VALUE + LINE_END + rb")*)" + LINE_END
BLANK = rb"(?:" + LINE_END + rb")*"
REQUEST = re.compile(BLANK + rb"(" + TOKEN + rb") ([\x21-\x7e\x80-\xff]+) HTTP/1\.([01])" + LINE_END + FIELDS)
ANSWER = re.compile(BLANK + rb"HTTP/1\.[01] ([0-9]{3})(?: " + VALUE + rb")?" + LINE_END + FIELDS)
LENGTH = re.compile(rb"[0-9]{1,10}")
BEARER = re.compile(rb"bearer +([\x21-\x7e]{1,1024})", re.IGNORECASE)
HEAD_LIMIT = 16384
FIELD_LIMIT = 64
BODY_LIMIT = 8388608
ANSWER_LIMIT = 33554432


def fields_of(section):
    """Names in lower case, values without the spaces and tabs around them."""
    return [(name.lower(), value.strip(b" \t")) for name, value in FIELD.findall(section)]


def values_of(fields, name):
    return [value for field, value in fields if field == name]


def head_at(form, data, place):
    """The match of a head within the bounds, and its fields, or nothing."""
    match = form.match(data, place, min(len(data), place + HEAD_LIMIT))
    if match is None:
        return None
    fields = fields_of(match.groups()[-1])
    return (match, fields) if len(fields) <= FIELD_LIMIT else None


def length_in(fields, limit):
    """The length that all of Content-Length say, or the status of the refusal; None where there is none."""
    lengths = set(values_of(fields, b"content-length"))
    if not lengths:
        return None, None
    text = lengths.pop()
    if lengths or not LENGTH.fullmatch(text):
        return None, 400
    return (int(text), None) if int(text) <= limit else (None, 413)


def body_length(method, fields):
    """The body's length, or the status of the first check that fails."""
    if values_of(fields, b"transfer-encoding") or any(value.lower() != b"identity" for value in values_of(fields, b"content-encoding")):
        return None, 501
    length, status = length_in(fields, BODY_LIMIT)
    if length is None and status is None:
        return (None, 411) if method == b"POST" else (0, None)
    return length, status


def token_in(fields):
    match = BEARER.fullmatch((values_of(fields, b"authorization") or [b""])[0])
    return match.group(1) if match else b""


def closes(minor, fields):
    options = [option.strip(b" \t").lower() for value in values_of(fields, b"connection") for option in value.split(b",")]
    return minor == b"0" or b"close" in options


def is_utf8(data):
    try:
        data.decode("utf-8")
        return True
    except UnicodeDecodeError:
        return False


def lines(data):
    """A line for each message of an input, and one for what ends them."""
    found, place = [], 0
    while place < len(data):
        head = head_at(REQUEST, data, place)
        if head is None or not is_utf8(head[0].group(2)):
            return found + ["check 400 %d " % place]
        match, fields = head
        method, target, minor = match.group(1), match.group(2), match.group(3)
        length, status = body_length(method, fields)
        if status is None and match.end() + length > len(data):
            status = 400
        if status is not None:
            return found + ["check %d %d " % (status, place)]
        body = data[match.end() : match.end() + length]
        texts = "".join("x%s " % text.hex() for text in (method, target, token_in(fields), body))
        found.append("message %d %d %s" % (place, closes(minor, fields), texts))
        place = match.end() + length
    return found + ["end"]


def answer(data):
    """The status and the body of the one answer that the bytes are, or nothing."""
    head = head_at(ANSWER, data, 0)
    if head is None:
        return None
    match, fields = head
    length, _ = length_in(fields, ANSWER_LIMIT)
    if length is None or match.end() + length != len(data):
        return None
    return int(match.group(1)), data[match.end() :]
