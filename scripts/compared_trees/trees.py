"""Trees that programs are compared by: given ones, and ones that are made; and how two texts of them differ."""

import json
import os
import random
import subprocess

import command
from varied import varied

TOGETHER = 200  # statements in a script that is made
NOWHERE = {"lo": 0, "hi": 0}
A = {"span": NOWHERE, "sym": "a", "optional": False}
BINDING = {"id": A, "type_ann": None}
OTHER_EXPRS = {"TsTypeAssertion", "TsConstAssertion", "TsNonNull", "TsAs", "TsInstantiation", "TsSatisfies"}
JSX = {"JSXMember", "JSXNamespacedName", "JSXEmpty", "JSXElement", "JSXFragment"}
OTHER_DECLS = {"TsInterface", "TsTypeAlias", "TsEnum", "TsModule"}
OTHER_MODULE_DECLS = {"TsImportEquals", "TsExportAssignment", "TsNamespaceExport"}
TYPES = ("type_ann", "type_args", "type_params", "return_type", "super_type_params", "accessibility", "with")
FLAGS = ("declare", "definite", "is_abstract", "is_optional", "is_override", "readonly", "type_only", "is_type_only")
OF_CLASS = "member of a class"
# what the reference changes in a part of a template
ESCAPES = ("\\x24", "\\x5c", "\\x60", "\\x7b", "\\\n", "\\\r")
# which numbers are printed alike: those that these are put for
NUMBERS = [("1", 0, "1"), ("1", 3, "1000"), ("5", -1, ".5"), ("15", -1, None), ("255", 0, "0xFF"), ("3", 0, None)]


def number(node):
    """A number that both print alike, for one that they may not."""
    finite = node["value"].get("Finite") if isinstance(node["value"], dict) else None
    if finite and not finite["negative"] and len(finite["digits"]) < 10 and node["raw"] != "089":
        return node
    digits, exponent, raw = NUMBERS[len(json.dumps(node)) % len(NUMBERS)]
    return {"span": node["span"], "value": {"Finite": {"negative": False, "digits": digits, "exponent": exponent}}, "raw": raw}


def big_integer(node):
    if node["raw"] is None or not node["raw"].islower() or len(node["digits"]) > 9 or node["radix"] != "Decimal" or "_" in node["raw"]:
        return {"span": node["span"], "negative": False, "radix": "Decimal", "digits": "5", "raw": "5n"}
    return node


def is_number(expr):
    return "Num" in expr.get("Lit", {})


def is_other_module_decl(node):
    """Whether an import or an export is one of TypeScript."""
    ((name, value),) = node.items()
    return (
        name in OTHER_MODULE_DECLS
        or (name == "ExportDecl" and any(other in value["decl"] for other in OTHER_DECLS))
        or (name == "ExportDefaultDecl" and "TsInterfaceDecl" in value["decl"])
    )


def without_types(made):
    """A node without what TypeScript adds to it."""
    for name in TYPES:
        if name in made:
            made[name] = None
    for name in FLAGS:
        if name in made:
            made[name] = False
    for name in {"implements", "this_param"} & set(made):
        made[name] = [] if name == "implements" else None
    if made.get("optional") is True and "base" not in made:
        made["optional"] = False
    # (the reference forgets the semicolon of a function without a body before most punctuators)
    if "body" in made and made["body"] is None:
        made["body"] = {"span": NOWHERE, "stmts": []}


def restricted(node, under=None, departs=False):
    """A tree of what is printed alike; `under` is the name of the variant or of the member that holds it.

    With `departs` the reference is one that prints as this printer does where only its texts differ by intent
    (docs/DIFFERENCES.md): declarations by `using`, decorators of private methods, dots after numbers, calls of `new`, semicolons that
    are held back, strings and text of JSX, and what TypeScript adds.
    """
    if isinstance(node, list):
        return [restricted(item, under, departs) for item in node]
    if not isinstance(node, dict):
        return node
    if len(node) == 1:
        ((name, value),) = node.items()
        if not departs and (name in JSX or (name == "Lit" and "JSXText" in value)):
            return {"Ident": A}
        if name == "Num" or (name == "Number" and "value" in value):
            return {name: number(value)}
        if name == "BigInt":
            return {name: big_integer(value)}
        if name == "Decl" and any(other in value for other in OTHER_DECLS) and not departs:
            return {"Empty": {"span": NOWHERE}}
        if name == "Using" and under in ("Decl", "decl") and not departs:
            # (the reference writes no semicolon after it)
            return {"Var": {"span": NOWHERE, "kind": "Const", "declare": False, "decls": restricted(value["decls"], "decls", departs)}}
        if name == "ModuleDecl" and is_other_module_decl(value) and not departs:
            return {"Stmt": {"Empty": {"span": NOWHERE}}}
        if name == "TsIndexSignature" and under == OF_CLASS and not departs:
            return {"Empty": {"span": NOWHERE}}
        if name == "TsParamProp" and not departs:
            decorators = restricted(value["decorators"], "decorators", departs)
            return {"Param": {"span": NOWHERE, "decorators": decorators, "pat": {"Ident": BINDING}}}
        if name == "PrivateMethod" and value["function"]["decorators"] and not departs:
            # (the reference loses them)
            return restricted({name: {**value, "function": {**value["function"], "decorators": []}}}, under)
        if name == "Invalid" or (name in OTHER_EXPRS and not departs):
            # (a target or a pattern holds another sort of name)
            is_pattern = under in ("Simple", "pat", "params", "elems", "left", "param", "this_param", "value") and name == "Invalid"
            return {"Ident": BINDING} if under == "Simple" or is_pattern else {"Ident": A}
    if set(node) == {"span", "raw"} and any(escape in node["raw"] for escape in ESCAPES):
        return {"span": node["span"], "raw": "a"}
    if "obj" in node and "prop" in node and is_number(node["obj"]) and not departs:
        node = {**node, "obj": {"Ident": A}}
    if "callee" in node and "optional" not in node and under == "Call" and "New" in node["callee"] and not departs:
        node = {**node, "callee": {"Paren": {"span": NOWHERE, "expr": node["callee"]}}}
    inside = {"body": OF_CLASS} if "super_class" in node else {}
    made = {name: restricted(value, inside.get(name, name), departs) for name, value in node.items()}
    if not departs:
        without_types(made)
    if "shebang" in made:
        made["shebang"] = None
    return made


def marked(node):
    """The same tree for the reference: an array pattern that ends with a hole has a source text that ends with a comma."""
    if isinstance(node, list):
        return [marked(item) for item in node]
    if not isinstance(node, dict):
        return node
    made = {name: marked(value) for name, value in node.items()}
    # (an array literal has no `type_ann`)
    if "type_ann" in made and made.get("elems") and made["elems"][-1] is None and made["span"] == NOWHERE:
        made["span"] = {"lo": 1, "hi": 2}
    return made


def program(body):
    """A script of statements, or a module of items."""
    is_module = any("ModuleDecl" in item or "Stmt" in item for item in body)
    return {"Module" if is_module else "Script": {"span": NOWHERE, "body": body, "shebang": None}}


def difference(ours, theirs):
    """How two answers differ, or nothing."""
    if ours == theirs or (ours[0] is None and theirs[0] is None):
        return None
    if ours[0] is None:
        return "refused: %s" % ours[1]
    if theirs[0] is None:
        return "refused by the reference alone"
    return "other blanks" if ours[0].replace(" ", "") == theirs[0].replace(" ", "") else "other text"


def made_by(tool, count, seed, size, together=TOGETHER, departs=False):
    """Scripts of statements, and modules of items, that a tool makes."""
    rng, scripts, modules = random.Random(seed), [], []
    while count > 0:
        some = min(count, 500)
        root = rng.choices(["Expr", "Stmt", "ModuleItem"], [6, 2, 2])[0]
        body = modules if root == "ModuleItem" else scripts
        words = ["--seed", str(rng.randint(1, 2**31)), "--n", str(some), "--size", str(rng.choice([size // 4, size // 2, size])), "--root", root]
        ran = subprocess.run(["node", tool, *words], stdout=subprocess.PIPE, check=True)
        for line in ran.stdout.decode().split("\n"):
            if line:
                node = varied(json.loads(line)["tree"], rng)
                node = {"Expr": {"span": NOWHERE, "expr": node}} if root == "Expr" else node
                body.extend(restricted([node], "body", departs))
        count -= some
        for body in (scripts, modules):
            while len(body) >= together or (body and count <= 0):
                yield program(body[:together])
                del body[:together]


def given(paths):
    """The trees of files and of folders of files."""
    for path in paths:
        names = sorted(os.path.join(path, name) for name in os.listdir(path)) if os.path.isdir(path) else [path]
        for name in names:
            for _, tree in command.trees_of(name):
                yield tree


def option(words, name, default):
    if name not in words:
        return default
    at = words.index(name)
    value = words[at + 1]
    del words[at : at + 2]
    return type(default)(value)
