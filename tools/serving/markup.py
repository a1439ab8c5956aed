"""XML as it comes over a network, by expat: a document type is refused, so no entity is declared, and none is read from outside."""

import xml.etree.ElementTree as trees

from . import cip4

MOST = 1 << 20     # bytes

trees.register_namespace("", cip4.JMF)
trees.register_namespace("xsi", cip4.XSI)


class Wrong(Exception):
    """A return code of CIP4, and why."""

    def __init__(self, code, why):
        super().__init__(why)
        self.code = code


def parsed(data, root):
    """The root of a document, which has this name."""
    if len(data) > MOST:
        raise Wrong(cip4.UNREADABLE, f"it has more than {MOST:,} bytes of XML")
    try:
        found = trees.fromstring(data, trees.XMLParser(target=Builder()))
    except (ValueError, LookupError, trees.ParseError) as fault:
        raise Wrong(cip4.UNREADABLE, f"it is no XML that is read here: {fault}") from None
    if found.tag != named(root):
        raise Wrong(cip4.INVALID, f"its root is {found.tag}, and not {named(root)}")
    return found


class Builder(trees.TreeBuilder):
    """A tree of few levels, without a document type."""
    depth = 0

    def doctype(self, *_):
        raise ValueError("it has a DOCTYPE")

    def start(self, tag, attributes):
        self.depth += 1
        if self.depth > cip4.DEEPEST:
            raise ValueError(f"it is deeper than {cip4.DEEPEST} elements")
        return super().start(tag, attributes)

    def end(self, tag):
        self.depth -= 1
        return super().end(tag)


def named(name):
    return f"{{{cip4.JMF}}}{name}"


def local(element):
    return element.tag.rpartition("}")[2]


def is_ours(element):
    return element.tag.startswith(f"{{{cip4.JMF}}}")


def unknown(element, known, anywhere=(), passed_over=()):
    """The first attribute or element, in the order of the document, that is not known: `Element/@Attribute`, or `Element`. Those of other namespaces mean nothing."""
    for each in filter(is_ours, element):
        if local(each) in passed_over:
            continue
        if local(each) not in known:
            return local(each)
        if found := unknown_attribute(each, known, anywhere) or unknown(each, known, anywhere, passed_over):
            return found
    return None


def unknown_attribute(element, known, anywhere):
    """The same of an element's own attributes: one that is not known, or has a value that has no place."""
    for name, value in element.attrib.items():
        place = f"{local(element)}/@{name}"
        if "}" not in name and name not in anywhere and (place not in known or value not in cip4.ONLY.get(place, (value,))):
            return f'{place}="{value}"'
    return None
