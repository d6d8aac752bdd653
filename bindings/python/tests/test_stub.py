"""The types of the extension: the stub names what the extension has, with the same parameters."""

import ast
import inspect
import pathlib
import unittest

import hlcstore
from hlcstore import _native

STUB = ast.parse(pathlib.Path(_native.__file__).with_name("_native.pyi").read_text())
# What every class, or every module, has.
COMMON = set(dir(object)) | {"__module__"}


def declared(body):
    """The names that a part of the stub declares. Of several declarations of one name it is the first."""
    names = {}
    for part in body:
        if isinstance(part, (ast.FunctionDef, ast.ClassDef)):
            names.setdefault(part.name, part)
        elif isinstance(part, ast.AnnAssign):
            names.setdefault(part.target.id, part)
    return names


def stub_parameters(function):
    """The parameters of a function of the stub but the first of a method: their names, kinds and defaults."""
    arguments, names = function.args, inspect.Parameter
    ordered = [(each.arg, names.POSITIONAL_ONLY) for each in arguments.posonlyargs]
    ordered += [(each.arg, names.POSITIONAL_OR_KEYWORD) for each in arguments.args]
    empty = [names.empty] * (len(ordered) - len(arguments.defaults))
    defaults = empty + [ast.literal_eval(default) for default in arguments.defaults]
    found = [(name, kind, default) for (name, kind), default in zip(ordered, defaults)]
    if arguments.vararg:
        found.append((arguments.vararg.arg, names.VAR_POSITIONAL, names.empty))
    by_name = zip(arguments.kwonlyargs, arguments.kw_defaults)
    found += [(each.arg, names.KEYWORD_ONLY, ast.literal_eval(default)) for each, default in by_name]
    return [each for each in found if each[0] not in ("self", "cls")]


def real_parameters(function):
    """The same of a function of the extension."""
    parameters = inspect.signature(function).parameters.values()
    return [(each.name, each.kind, each.default) for each in parameters if each.name != "self"]


class Stub(unittest.TestCase):
    def test_the_module(self):
        names = {name for name in dir(_native) if not name.startswith("__")}
        self.assertEqual(names, {name for name in declared(STUB.body) if not name.startswith("_")})

    def test_functions(self):
        for name, part in declared(STUB.body).items():
            if isinstance(part, ast.FunctionDef):
                self.assertEqual(stub_parameters(part), real_parameters(getattr(_native, name)), name)

    def test_classes(self):
        for kind in hlcstore.Batch, hlcstore.Item, hlcstore.Node, hlcstore.Snapshot, hlcstore.Store:
            part = declared(STUB.body)[kind.__name__]
            named = declared(part.body)
            self.assertEqual(set(dir(kind)) - COMMON, set(named) - COMMON, kind)
            for name, function in named.items():
                self.compare(kind, name, function)

    def compare(self, kind, name, function):
        real = kind if name == "__new__" else getattr(kind, name)
        decorators = {decorator.id for decorator in function.decorator_list}
        if "property" in decorators:
            self.assertTrue(inspect.isdatadescriptor(real), (kind, name))
        elif not name.startswith("__") or name == "__new__":
            self.assertEqual(stub_parameters(function), real_parameters(real), (kind, name))

    def test_all_calls_are_documented(self):
        for kind in hlcstore.Batch, hlcstore.Item, hlcstore.Node, hlcstore.Snapshot, hlcstore.Store:
            for name in {"__doc__"} | set(dir(kind)) - COMMON:
                self.assertTrue(inspect.getdoc(getattr(kind, name)), (kind, name))


if __name__ == "__main__":
    unittest.main()
