"""Types of expressions that the program accepts, and plain stand-ins for parts of a program."""

LITERALS = {"int": 0, "bool": False, "text": "", "ints": ["ints"], "texts": ["texts"], "list": ["ints"], None: 0}
ITEMS = {"ints": "int", "texts": "text"}
RESULTS = {
    **dict.fromkeys(("event", "+", "-", "*", "div", "mod", "len"), "int"),
    **dict.fromkeys(("=", "<", "and", "or", "not"), "bool"),
    **{"ints": "ints", "texts": "texts", "range": "ints", "show": "text"},
}
OPERANDS = {
    **dict.fromkeys(("+", "-", "*", "div", "mod", "<"), ("int", "int")),
    **dict.fromkeys(("and", "or"), ("bool", "bool")),
    **{"not": ("bool",), "len": ("list",), "reverse": ("list",), "range": ("int",), "show": ("int",)},
    "drop": ("list", "int"),
}
NAMED = ("field", "prop", "var", "inherit")


class Scope:
    """The types of the names that an expression sees: fields, props, loop variables and inherited names."""

    def __init__(self, inherited=None, props=None, fields=None, variables=None):
        self.names = {"inherit": inherited or {}, "prop": props or {}, "field": fields or {}, "var": variables or {}}

    def with_variable(self, name, kind):
        """The scope within a loop over a list of this type."""
        made = Scope()
        made.names = {**self.names, "var": {**self.names["var"], name: ITEMS.get(kind)}}
        return made

    def known(self, sort):
        """The names of a sort."""
        return list(self.names[sort])


def type_of(expression, scope):
    """The type of an expression that is accepted; none where that isn't known."""
    if isinstance(expression, bool):
        return "bool"
    if isinstance(expression, int):
        return "int"
    if isinstance(expression, str):
        return "text"
    if not isinstance(expression, list):
        return None
    operator, operands = expression[0], expression[1:]
    if operator in NAMED:
        return scope.names[operator].get(operands[0])
    if operator == "if":
        return type_of(operands[1], scope)
    if operator == "at":
        return ITEMS.get(type_of(operands[0], scope))
    return RESULTS.get(operator) or type_of(operands[0], scope)


def operand_type(operator, at, before, scope):
    """The type that an operand wants, after those before it; `any` where each will do."""
    if operator in ("ints", "texts"):
        return ITEMS[operator]
    if operator in OPERANDS:
        return OPERANDS[operator][at]
    first = type_of(before[0], scope) if before else None
    if operator == "if":
        return ("bool", "any", type_of(before[1], scope) if at == 2 else None)[at]
    if operator in ("=", "cat"):
        return (("any" if operator == "=" else "joined"), first)[at]
    if operator == "push":
        return ("list", ITEMS.get(first))[at]
    return ("list", "int", ITEMS.get(first))[at]


def literal(kind):
    """A plain literal of a type."""
    return LITERALS.get(kind, "" if kind == "joined" else 0)


def neutral(expression, kind, scope):
    """An expression of a type that has another one in it, whose own type doesn't matter."""
    own = type_of(expression, scope)
    if own == kind:
        return expression
    return ["if", ["=", expression, literal(own)], literal(kind), literal(kind)]
