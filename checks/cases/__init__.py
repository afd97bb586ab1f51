"""The cases: small runs in which a near miss of a rule shows, and the table of what a request asks for."""
import importlib, pkgutil

from evaluate.steps import SMALL


def cases():
    """All of them, by name. A module of this folder adds its own as it is imported."""
    for module in pkgutil.walk_packages(__path__, __name__ + '.'):
        importlib.import_module(module.name)
    from cases import asking
    runs = [make().case(name.replace('_', ' ')) for name, make in sorted(SMALL.items())]
    return runs + [asking.case(*row) for row in asking.ASKED]
