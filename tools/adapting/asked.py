"""What a request asks for: its arguments by their names, each of the kind that the Debug Adapter Protocol gives it, or the reason why not."""

KINDS = {str: "a text", int: "a whole number", bool: "true or false", list: "a list", dict: "an object"}


class Refused(Exception):
    """A request that cannot be carried out, with the reason."""


class Asked:
    """An object of a message. What is null is as what is missing."""

    def __init__(self, told):
        self.told = {} if told is None else of_kind(told, "arguments", dict)

    def given(self, name, *kinds):
        """A member of one of these kinds, or None where it is missing."""
        value = self.told.get(name)
        return value if value is None else of_kind(value, name, *kinds)

    def needed(self, name, *kinds):
        value = self.given(name, *kinds)
        if value is None:
            raise Refused(f"'{name}' is missing")
        return value

    def within(self, name):
        """An object inside, empty where it is missing."""
        return Asked(self.given(name, dict))

    def texts(self, name):
        return [of_kind(each, f"what stands in {name}", str) for each in self.given(name, list) or []]

    def objects(self, name):
        return [Asked(of_kind(each, f"what stands in {name}", dict)) for each in self.given(name, list) or []]


def of_kind(value, name, *kinds):
    """The value, if it is of one of these kinds; a truth value is no number."""
    if type(value) not in kinds:
        raise Refused(f"{name} is not {' or '.join(KINDS[kind] for kind in kinds)}")
    return value
