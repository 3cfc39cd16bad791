"""The list of wrong models: each is the model with an edit of its text, seldom more, named by what it does wrong."""
WRONG = {}                                                    # name: (module, pairs of old text and new text)

# Texts of `formats` that more than one edit changes
CALL = "told(getattr(service, {\"routers\": \"replace_routers\"}.get(name, name))(*arguments), memory)"
ANSWERED = f"    try:\n        line = {CALL}\n    except Refused as refused:\n        line = f\"refuse {{refused.number}}\"\n"


def wrong(module, name, old, new, *more):
    if name in WRONG:
        raise AssertionError(f"{name} stands twice")
    WRONG[name] = module, [(old, new), *more]


def swapped(name, first, second):
    """Two lines of a call in the other order."""
    wrong("node", name, f"        {first}\n        {second}\n", f"        {second}\n        {first}\n")
