"""Configurations of daemons on this machine."""

HOST = "127.0.0.1"


def as_toml(value):
    """A value of a configuration: a number, a text, or a list of such."""
    if isinstance(value, list):
        return f"[{', '.join(as_toml(it) for it in value)}]"
    return f'"{value}"' if isinstance(value, str) else str(value)


def configuration(**values):
    """The text of a configuration. `members` are pairs of an id and a port of this machine, or an address."""
    members = values.pop("members")
    lines = [f"{key} = {as_toml(it)}" for key, it in values.items()]
    for id, at in members:
        peer = at if isinstance(at, str) else f"{HOST}:{at}"
        lines += ["", "[[member]]", f"id = {id}", f'at = "{peer}"']
    return "\n".join(lines) + "\n"
