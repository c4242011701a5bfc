"""Trees that are made from a seed, for scripts/dev/bench.

`made(KIND, SIZE)` is the JSON of a script whose text has about so many bytes, of one of the `KINDS`. Each node has the span that it
has in a text without line ends, counted from 1.
"""

import json
import random

BINARY = {"Add": "+", "Sub": "-", "Mul": "*", "EqEqEq": "===", "LogicalAnd": "&&", "In": "in", "BitOr": "|", "Lt": "<"}
UNARY = {"Minus": "-", "Bang": "!", "TypeOf": "typeof", "Void": "void"}
KEYWORDS = ["String", "Number", "Boolean", "Void", "Any", "Unknown", "Null", "Undefined"]
# enums in enums
SUMS = ("Lit", "TsUnionOrIntersectionType", "TsFnOrConstructorType")


def ident(name):
    return {"Ident": {"span": None, "sym": name, "optional": False}}


def binary(op, left, right):
    return {"Bin": {"span": None, "op": op, "left": left, "right": right}}


def unary(op, arg):
    return {"Unary": {"span": None, "op": op, "arg": arg}}


def paren(expr):
    return {"Paren": {"span": None, "expr": expr}}


def member(obj, name):
    prop = {"Ident": {"span": None, "sym": name}}
    return {"Member": {"span": None, "obj": obj, "prop": prop}}


def choice(test, cons, alt):
    return {"Cond": {"span": None, "test": test, "cons": cons, "alt": alt}}


def literal(kind, **fields):
    return {"Lit": {kind: {"span": None, **fields}}}


def decimal(number):
    """A whole number or tenths, as the tree has it."""
    digits = str(number).replace(".", "").strip("0")
    whole, _, tenths = str(number).partition(".")
    exponent = -len(tenths) if tenths else len(whole) - len(whole.rstrip("0"))
    return {"Finite": {"negative": False, "digits": digits, "exponent": exponent}}


def argument(expr):
    return {"spread": None, "expr": expr}


def call(callee, args):
    return {"Call": {"span": None, "callee": {"Expr": callee}, "args": [argument(arg) for arg in args], "type_args": None}}


def new(name, args):
    return {"New": {"span": None, "callee": ident(name), "args": [argument(arg) for arg in args], "type_args": None}}


def array(exprs):
    return {"Array": {"span": None, "elems": [argument(expr) for expr in exprs]}}


def keyed(name, value):
    return {"Prop": {"KeyValue": {"key": {"Ident": {"span": None, "sym": name}}, "value": value}}}


def made_object(props):
    return {"Object": {"span": None, "props": props}}


def binding(name, of=None):
    return {"Ident": {"id": ident(name)["Ident"], "type_ann": annotation(of) if of else None}}


def assign(name, right):
    return {"Assign": {"span": None, "op": "Assign", "left": {"Simple": binding(name)}, "right": right}}


def arrow(names, body):
    kinds = {"is_async": False, "is_generator": False, "type_params": None, "return_type": None}
    return {"Arrow": {"span": None, "params": [binding(name) for name in names], "body": {"Expr": body}, **kinds}}


def function(names, exprs):
    params = [{"span": None, "decorators": [], "pat": binding(name)} for name in names]
    body = {"span": None, "stmts": [{"Expr": {"span": None, "expr": expr}} for expr in exprs]}
    kinds = {"is_async": False, "is_generator": False, "type_params": None, "return_type": None}
    return {"Fn": {"ident": None, "function": {"span": None, "params": params, "decorators": [], "body": body, **kinds}}}


def annotation(of):
    return {"span": None, "type_ann": of}


def reference(name, args=()):
    args = {"span": None, "params": list(args)} if args else None
    return {"TsTypeRef": {"span": None, "type_name": ident(name), "type_params": args}}


def parameter(name):
    marks = {"is_in": False, "is_out": False, "is_const": False}
    return {"span": None, "name": ident(name)["Ident"], **marks, "constraint": None, "default": None}


def parameters(names):
    return {"span": None, "params": [parameter(name) for name in names]} if names else None


def listed(items):
    """The items with a comma between."""
    return [part for item in items for part in (", ", item)][1:]


def spelled(node):
    """The text of a literal, as it is printed pretty."""
    if "exp" in node:
        return "/%s/%s" % (node["exp"], node["flags"])
    if "value" not in node:
        return "null"
    if isinstance(node["value"], bool):
        return "true" if node["value"] else "false"
    if isinstance(node["value"], str):
        return node["raw"] or '"%s"' % node["value"]
    finite = node["value"]["Finite"]
    return node["raw"] or str(float(finite["digits"] + "e%d" % finite["exponent"])).removesuffix(".0")


def inner(node):
    """What a variant holds, where it has a span."""
    ((_, held),) = node.items()
    return held


def parts_of_prop(prop):
    value = prop["Prop"]["KeyValue"]
    return [(inner(value["key"]), [inner(value["key"])["sym"]]), ": ", value["value"]]


def parts_of_binding(pat):
    return [(pat["Ident"]["id"], [pat["Ident"]["id"]["sym"]])]


def parts_of_function(node):
    params = [(param, parts_of_binding(param["pat"])) for param in node["params"]]
    stmts = [(inner(stmt), [inner(stmt)["expr"], ";"]) for stmt in node["body"]["stmts"]]
    return [(node, ["function(", *listed(params), ") ", (node["body"], ["{", *stmts, "}"])])]


def parts_of_name(name):
    return [(name, [name["sym"]])]


def parts_of_annotation(node):
    return [(node, [": ", node["type_ann"]])] if node else []


def parts_of_parameters(node):
    return [(node, ["<", *listed([(param, parts_of_name(param["name"])) for param in node["params"]]), ">"])] if node else []


def part_of_typed(pat):
    """A parameter with its type, which its name's span holds too."""
    return pat["Ident"]["id"], [pat["Ident"]["id"]["sym"], *parts_of_annotation(pat["Ident"]["type_ann"])]


def parts_of_typed(params):
    return ["(", *listed([part_of_typed(pat) for pat in params]), ")"]


def parts_of_member(member):
    """A member of an object type, which ends with a semicolon."""
    ((kind, node),) = member.items()
    if kind == "TsIndexSignature":
        typed = ["[", *parts_of_typed(node["params"])[1:-1], "]"]
    else:
        readonly = "readonly " * node.get("readonly", False)
        typed = [readonly, *parts_of_name(node["key"]["Ident"]), "?" * node["optional"], *(parts_of_typed(node["params"]) if "params" in node else [])]
    return (node, [*typed, *parts_of_annotation(node["type_ann"]), "; "])


def parts_of_declared(node):
    """A function that is declared."""
    function = node["function"]
    params = listed([(param, [part_of_typed(param["pat"])]) for param in function["params"]])
    head = ["declare function ", *parts_of_name(node["ident"]), *parts_of_parameters(function["type_params"])]
    return [(function, [*head, "(", *params, ")", *parts_of_annotation(function["return_type"])])]


def parts_of_type(kind, node):
    """The same of a type or a declaration."""
    if kind == "TsKeywordType":
        return [node["kind"][2:-7].lower()]
    if kind == "TsLitType":
        return [(inner(node["lit"]), [spelled(inner(node["lit"]))])]
    if kind == "TsTypeRef":
        args = node["type_params"]
        return [*parts_of_name(node["type_name"]["Ident"]), *([(args, ["<", *listed(args["params"]), ">"])] if args else [])]
    if kind == "TsArrayType":
        return [node["elem_type"], "[]"]
    if kind == "TsUnionOrIntersectionType":
        return [part for of in node["types"] for part in (" | ", of)][1:]
    if kind == "TsFnOrConstructorType":
        return [*parts_of_typed(node["params"]), " => ", (node["type_ann"], [node["type_ann"]["type_ann"]])]
    if kind == "TsTypeLit":
        return ["{ ", *map(parts_of_member, node["members"]), "}"]
    if kind == "TsTypeAlias":
        return ["type ", *parts_of_name(node["id"]), *parts_of_parameters(node["type_params"]), " = ", node["type_ann"]]
    if kind == "TsInterface":
        bases = [(base, [base["expr"]]) for base in node["extends"]]
        head = ["interface ", *parts_of_name(node["id"]), *parts_of_parameters(node["type_params"]), " extends " * bool(bases), *listed(bases), " "]
        return [*head, (node["body"], ["{ ", *map(parts_of_member, node["body"]["body"]), "}"])]
    return parts_of_declared(node)


def parts_of(kind, node):
    """The texts and the nodes that a node is printed as; a node that isn't an expression has its own parts beside it."""
    if kind.startswith("Ts") or "declare" in node:
        return parts_of_type(kind, node)
    if kind == "Lit":
        return [spelled(node)]
    if kind == "Ident":
        return [node["sym"]]
    if kind == "Bin":
        return [node["left"], " %s " % BINARY[node["op"]], node["right"]]
    if kind == "Unary":
        return [UNARY[node["op"]] + " " * UNARY[node["op"]].isalpha(), node["arg"]]
    if kind == "Paren":
        return ["(", node["expr"], ")"]
    if kind == "Member":
        return [node["obj"], ".", node["prop"]]
    if kind == "Call":
        return [node["callee"]["Expr"], "(", *listed([arg["expr"] for arg in node["args"]]), ")"]
    if kind == "New":
        return ["new ", node["callee"], "(", *listed([arg["expr"] for arg in node["args"]]), ")"]
    if kind == "Array":
        return ["[", *listed([arg["expr"] for arg in node["elems"]]), "]"]
    if kind == "Object":
        return ["{", *[part for prop in node["props"] for part in [*parts_of_prop(prop), ", "]], "}"]
    if kind == "Assign":
        return [*parts_of_binding(node["left"]["Simple"]), " = ", node["right"]]
    if kind == "Arrow":
        return ["(", *listed([part for param in node["params"] for part in parts_of_binding(param)]), ")=>", node["body"]["Expr"]]
    if kind == "Fn":
        return parts_of_function(node["function"])
    return [node["test"], " ? ", node["cons"], " : ", node["alt"]]


def placed(node, parts, lo):
    """Gives a node that begins at `lo` its span, and those in it theirs, and tells where it ends."""
    hi = lo
    for part in parts:
        if isinstance(part, str):
            hi += len(part.encode())
        elif isinstance(part, tuple):
            hi = placed(*part, hi)
        else:
            hi = place(part, hi)
    if "span" in node:
        node["span"] = {"lo": lo, "hi": hi}
    return hi


def place(expr, lo):
    """The same of an expression, a type or a declaration."""
    ((kind, node),) = expr.items()
    node = inner(node) if kind in SUMS else node
    return placed(node, parts_of(kind, node), lo)


def real_like(rng, depth=5):
    """An expression as programs have them, and about how long its text is."""
    kind = rng.random() if depth else 0
    if kind < 0.3:
        name = rng.choice(["value", "index", "options", "i", "callback", "node", "result", "self"])
        return ident(name), len(name)
    if kind < 0.55:
        obj, size = real_like(rng, depth - 1)
        name = rng.choice(["length", "name", "children", "parentNode", "x"])
        return member(obj, name), size + 1 + len(name)
    if kind < 0.8:
        op = rng.choice(sorted(BINARY))
        left, size = real_like(rng, depth - 1)
        right, more = real_like(rng, depth - 1)
        return binary(op, left, right), size + more + 2 + len(BINARY[op])
    if kind < 0.87:
        op = rng.choice(sorted(UNARY))
        arg, size = real_like(rng, depth - 1)
        return unary(op, arg), size + len(UNARY[op])
    if kind < 0.94:
        expr, size = real_like(rng, depth - 1)
        return paren(expr), size + 2
    parts = [real_like(rng, depth - 1) for _ in range(3)]
    return choice(*[part for part, _ in parts]), 6 + sum(size for _, size in parts)


def dense(rng):
    """`!-a-- -b`: names of one letter between signs."""
    expr, size = ident("a"), 1
    for _ in range(10):
        expr, size = binary("Sub", expr, unary(rng.choice(["Minus", "Bang"]), ident("b"))), size + 5
    return expr, size


def flat(rng):
    return ident("a"), 1


def unicode_names(rng):
    name = "".join(rng.choice("éßλжשア漢\U00020000") for _ in range(8))
    return binary("Add", ident(name), ident(name)), 3 + 2 * len(name.encode())


def literals(rng):
    """`"a text" + 12.5 + ..`: strings and numbers, half of them with a raw, and others."""
    expr, size = ident("a"), 1
    for _ in range(8):
        kind, text = rng.random(), " ".join(rng.choice(["some", "words", "of", "text"]) for _ in range(3))
        number = rng.randint(1, 9999) if rng.random() < 0.5 else rng.randint(1, 999) + 0.5
        has_raw = rng.random() < 0.5
        if kind < 0.45:
            node = literal("Str", value=text, raw="'%s'" % text if has_raw else None)
        elif kind < 0.9:
            node = literal("Num", value=decimal(number), raw=str(number) if has_raw else None)
        elif kind < 0.95:
            node = literal("Regex", exp="[a-z]+", flags="g")
        else:
            node = rng.choice([literal("Bool", value=True), literal("Null")])
        expr, size = binary("Add", expr, node), size + 3 + len(spelled([*node["Lit"].values()][0]))
    return expr, size


def sized(expr):
    """The same, and about how long its text is."""
    return expr, place(expr, 1)


def called(rng, depth=3):
    """An argument, or what stands in one: a call, an object, an array, a function, or an expression as programs have them."""
    kind = rng.random() if depth else 1
    if kind < 0.25:
        callee = real_like(rng, 1)[0] if rng.random() < 0.5 else ident(rng.choice(["render", "push", "then", "map", "require"]))
        return call(callee, [called(rng, depth - 1) for _ in range(rng.choice([0, 1, 1, 2, 3]))])
    if kind < 0.4:
        names = [rng.choice(["name", "value", "type", "children", "options"]) for _ in range(rng.choice([0, 1, 2, 2, 4]))]
        return made_object([keyed(name, called(rng, depth - 1)) for name in names])
    if kind < 0.5:
        return array([called(rng, depth - 1) for _ in range(rng.choice([0, 1, 2, 3, 5]))])
    if kind < 0.6:
        return arrow(["x", "index"][: rng.choice([1, 1, 2])], call(ident("f"), [called(rng, depth - 1)]))
    if kind < 0.7:
        return function(["a", "b"][: rng.choice([0, 1, 2])], [called(rng, depth - 1) for _ in range(rng.choice([1, 2, 3]))])
    if kind < 0.75:
        return new(rng.choice(["Map", "Error"]), [called(rng, 0) for _ in range(rng.choice([0, 1]))])
    return real_like(rng, 2)[0]


def calls(rng):
    """`render({name: value}, [a, b], (x)=>f(x));`, or an assignment of as much."""
    expr = call(real_like(rng, 1)[0], [called(rng) for _ in range(rng.choice([1, 2, 3]))])
    return sized(assign("result", expr) if rng.random() < 0.3 else expr)


def named_type(rng):
    """A type of one name, or of one text."""
    kind = rng.random()
    if kind < 0.5:
        return {"TsKeywordType": {"span": None, "kind": "Ts%sKeyword" % rng.choice(KEYWORDS)}}
    if kind < 0.9:
        return reference(rng.choice(["Options", "Node", "Error", "Date", "T", "Buffer"]))
    return {"TsLitType": {"span": None, "lit": literal("Str", value="name", raw=rng.choice([None, "'name'"]))["Lit"]}}


def typed(rng, depth=3):
    """A type as declarations have them."""
    kind = rng.random() if depth else 0
    if kind < 0.55:
        return named_type(rng)
    if kind < 0.7:
        return reference(rng.choice(["Promise", "Partial", "Map", "Iterable"]), [typed(rng, depth - 1) for _ in range(rng.choice([1, 1, 2]))])
    if kind < 0.8:
        return {"TsArrayType": {"span": None, "elem_type": named_type(rng)}}
    if kind < 0.9:
        return {"TsUnionOrIntersectionType": {"TsUnionType": {"span": None, "types": [named_type(rng) for _ in range(rng.choice([2, 2, 3]))]}}}
    if kind < 0.95:
        of = {"span": None, "params": bindings(rng, depth - 1), "type_params": None, "type_ann": annotation(typed(rng, depth - 1))}
        return {"TsFnOrConstructorType": {"TsFnType": of}}
    return {"TsTypeLit": {"span": None, "members": members(rng, depth - 1)}}


def bindings(rng, depth):
    names = ["value", "index", "callback"][: rng.choice([0, 1, 1, 2, 3])]
    return [binding(name, typed(rng, depth)) for name in names]


def members(rng, depth):
    """Members of an object type: properties, methods, and some index signatures."""
    made = []
    for _ in range(rng.choice([1, 2, 3, 3, 5])):
        key = {"key": ident(rng.choice(["name", "length", "children", "options", "on", "x"])), "computed": False, "optional": rng.random() < 0.3}
        kind, of = rng.random(), annotation(typed(rng, depth))
        if kind < 0.65:
            made.append({"TsPropertySignature": {"span": None, "readonly": rng.random() < 0.2, **key, "type_ann": of}})
        elif kind < 0.95:
            made.append({"TsMethodSignature": {"span": None, **key, "params": bindings(rng, depth), "type_ann": of, "type_params": None}})
        else:
            string = {"TsKeywordType": {"span": None, "kind": "TsStringKeyword"}}
            made.append({"TsIndexSignature": {"span": None, "params": [binding("key", string)], "type_ann": of, "readonly": False, "is_static": False}})
    return made


def types(rng):
    """`interface Table<T> extends Base { .. }`, `type Entry<T> = ..`, or `declare function create(..): ..`."""
    kind, names = rng.random(), ["T", "K"][: rng.choice([0, 0, 1, 2])]
    name = ident(rng.choice(["Table", "Entry", "Reader", "Settings"]))["Ident"]
    if kind < 0.5:
        bases = [{"span": None, "expr": ident("Base"), "type_args": None}][: rng.choice([0, 1])]
        body = {"span": None, "body": members(rng, 2)}
        return sized({"TsInterface": {"span": None, "id": name, "declare": False, "type_params": parameters(names), "extends": bases, "body": body}})
    if kind < 0.75:
        return sized({"TsTypeAlias": {"span": None, "declare": False, "id": name, "type_params": parameters(names), "type_ann": typed(rng)}})
    params = [{"span": None, "decorators": [], "pat": pat} for pat in bindings(rng, 2)]
    kinds = {"decorators": [], "body": None, "is_generator": False, "is_async": False}
    result = {"type_params": parameters(names), "return_type": annotation(typed(rng))}
    return sized({"Fn": {"ident": ident("create")["Ident"], "declare": True, "function": {"span": None, "params": params, **kinds, **result}}})


def deep(rng):
    """As deep as JSON may be: 127 levels, two for each node."""
    expr, size = ident("a"), 1
    for _ in range(55):
        expr, size = (paren(expr), size + 2) if rng.random() < 0.5 else (binary("Add", expr, ident("b")), size + 4)
    return expr, size


def made(kind, size):
    """The JSON of a script whose text has about so many bytes."""
    rng = random.Random(kind.__name__)
    items, made, lo = [], 0, 1
    while made < size:
        expr, more = kind(rng)
        hi = place(expr, lo) + 1
        item = {"Decl": expr} if kind is types else {"Expr": {"span": {"lo": lo, "hi": hi}, "expr": expr}}
        items.append(json.dumps(item, ensure_ascii=False, separators=(",", ":")))
        made += more + 2
        lo = hi + 1
    body = '"body":[' + ",".join(items) + '],"shebang":null'
    return '{"Script":{"span":{"lo":1,"hi":%d},%s}}' % (lo, body)


KINDS = (real_like, dense, flat, unicode_names, literals, calls, deep, types)
