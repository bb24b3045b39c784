"""Styles and locales that are made of others by a few changes, drawn by a seed."""
import random
import xml.etree.ElementTree as ElementTree

CSL = 'http://purl.org/net/xbiblio/csl'
ElementTree.register_namespace('', CSL)
# Names and values that files have seldom or never.
ATTRIBUTES = ['form', 'variable', 'macro', 'term', 'value', 'name', 'match', 'position', 'plural', 'delimiter', 'later', 'et-al-min', 'names-min']
VALUES = ['', ' ', 'x', '0', '-1', '4294967296', '99999999999999999999', 'true', 'none', 'event', 'editortranslator', 'title issued', 'é' * 50]
NAMES = ['text', 'names', 'institution', 'if', 'else', 'else-if', 'macro', 'layout', 'term', 'later', 'substitute', 'date-part', 'locale']


class Pool:
    """What changes are made of: the elements, names and values of some documents."""

    def __init__(self, documents):
        roots = [ElementTree.fromstring(it) for it in documents]
        elements = [it for root in roots for it in root.iter()]
        self.elements = [ElementTree.tostring(it) for it in elements if len(it) < 4]
        self.names = sorted({it.tag for it in elements}) + ['{%s}%s' % (CSL, it) for it in NAMES]
        self.attributes = sorted({name for it in elements for name in it.attrib}) + ATTRIBUTES
        self.values = sorted({value for it in elements for value in it.attrib.values()}) + VALUES


def change(draw, root, pool):
    """Makes one change in a document."""
    elements = list(root.iter())
    element, parent = draw.choice(elements), draw.choice(elements)
    kind = draw.randrange(8)
    if kind == 0 and len(parent):
        parent.remove(draw.choice(list(parent)))
    elif kind == 1:
        parent.insert(draw.randint(0, len(parent)), ElementTree.fromstring(draw.choice(pool.elements)))
    elif kind == 2:
        element.tag = draw.choice(pool.names)
    elif kind == 3:
        element.set(draw.choice(pool.attributes), draw.choice(pool.values))
    elif kind == 4 and len(parent) > 1:
        child = draw.choice(list(parent))
        parent.remove(child)
        parent.insert(draw.randint(0, len(parent)), child)
    elif kind == 5:
        element.text = draw.choice(pool.values)
    elif element.attrib:
        name = draw.choice(sorted(element.attrib))
        if kind == 6:
            element.set(name, draw.choice(pool.values))
        else:
            del element.attrib[name]


def mutated_documents(bases, count, seed):
    """As many documents, each with one to three changes."""
    draw, pool = random.Random(seed), Pool(bases)
    for _ in range(count):
        root = ElementTree.fromstring(draw.choice(bases))
        for _ in range(draw.randint(1, 3)):
            change(draw, root, pool)
        yield ElementTree.tostring(root, encoding='utf-8')
