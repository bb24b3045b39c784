"""Documents that are made of others by a few changes, drawn by a seed."""
import random

# What is put in: markup, beginnings and ends of it, names, references, and characters that XML excludes or treats.
PIECES = [
    *b'< > / = & ; : ! ? - [ ] # x'.split(), b'"', b"'", b' ', b'\n', b'\r', b'\r\n', b'\t',
    b'</', b'/>', b'<a>', b'</a>', b'<a/>', b'<b c="d"/>', b'</style>', b'<a:b/>', b'a:b', b':a', b'a:', b'a:b:c',
    b'<!--', b'-->', b'--', b'<!-- c -->', b'<?', b'?>', b'<?a?>', b'<?a b?>', b'<?xml', b'<?xml version="1.0"?>', b'<?a:b?>',
    b'<![CDATA[', b']]>', b'<![CDATA[ & ]]>', b'<!DOCTYPE a>', b'<!', b'<![',
    b'&lt;', b'&amp;', b'&lt', b'&a;', b'&#38;', b'&#x3c;', b'&#0;', b'&#xd800;', b'&#xfffe;', b'&#x110000;', b'&#;', b'&#x;', b'&#99999999999;',
    b' a="b"', b" a='b'", b' a=""', b' a="<"', b' a = "b"', b' a', b' xml:lang="en"', b' xmlns="u"', b' xmlns=""', b' xmlns:a="u"', b' xmlns:b="u"',
    b' a:c="1" b:c="2"', b' xmlns:a=""', b' xmlns:xml="u"', b' xmlns:xmlns="u"', b' xmlns:a="http://www.w3.org/XML/1998/namespace"',
    b'version="1.1"', b'encoding="latin-1"', b'standalone="no"', b'xmlns', b'xml',
    b'\0', b'\x01', b'\x1f', b'\x7f', b'\xc2\x85', b'\xc2\xb7', b'\xc3\xa9', b'\xcc\x81', b'\xe2\x80\xa8', b'\xef\xbb\xbf', b'\xef\xbf\xbd', b'\xef\xbf\xbe',
    b'\xef\xbf\xbf', b'\xf0\x9f\x98\x80', b'\xf4\x8f\xbf\xbf', b'\x80', b'\xc3', b'\xff', b'\xed\xa0\x80', b'\xf4\x90\x80\x80', b'\xc0\xaf',
]


def changed(draw, document, bases):
    """The document with one change."""
    at = draw.randint(0, len(document))
    to = min(len(document), at + min(draw.randint(1, 30), draw.randint(1, 30)))
    front, part, behind = document[:at], document[at:to], document[to:]
    kind = draw.randrange(6)
    if kind == 0:
        return front + behind
    if kind == 1:
        return front + part + part + behind
    if kind == 2:
        return front + draw.choice(PIECES) + document[at + 1 :]
    if kind == 3:
        other = draw.choice(bases)
        begin = draw.randint(0, len(other))
        return front + other[begin : begin + draw.randint(1, 60)] + document[at:]
    return front + draw.choice(PIECES) + document[at:]


def mutated_documents(bases, count, seed):
    """As many documents, each with one to three changes."""
    draw = random.Random(seed)
    for _ in range(count):
        document = draw.choice(bases)
        for _ in range(min(draw.randint(1, 3), draw.randint(1, 3))):
            document = changed(draw, document, bases)
        yield document
