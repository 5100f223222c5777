"""Plans of trees in memory, in the words of `wax_test_kit::plans`."""

# the root of each tree in memory
ROOT = "a/ b ; x"


def tree_of(plan):
    """Returns the tree of a plan: a dictionary for a folder, `@` for a link, and `None` for a file. A folder that can't be
    listed is an empty one here."""
    made = {}
    outer = []
    for word in plan.split():
        if word.endswith("/"):
            outer.append((word[:-1], made))
            made = {}
        elif word == ";":
            name, before = outer.pop()
            before.setdefault(name, made)
            made = before
        elif word.endswith("#"):
            made.setdefault(word[:-1], {})
        else:
            made.setdefault(word.removesuffix("@"), "@" if word.endswith("@") else None)
    return made


def plan_of(tree):
    """Returns the plan of a tree."""
    words = []
    for name, node in tree.items():
        words += [f"{name}/", *plan_of(node).split(), ";"] if isinstance(node, dict) else [f"{name}{node or ''}"]
    return " ".join(words)
