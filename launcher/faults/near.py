"""The nearest of some names to a word."""
import difflib

SHORT = 3  # letters


def nearest(word, names):
    """The name that is likely to be meant, or None. Letters are equal in both cases."""
    lower = {}
    for name in names:
        lower.setdefault(name.lower(), name)
    found = difflib.get_close_matches(word.lower(), lower, n=1, cutoff=0.6)
    # Short words are alike by chance: one letter may be another, and not the first.
    if not found or (len(word) <= SHORT and (found[0][:1] != word[:1].lower() or abs(len(found[0]) - len(word)) > 1)):
        return None
    return lower[found[0]]


def meant(word, names, else_says=None):
    """A line that names the nearest name, if there is one; otherwise the line that is given."""
    name = nearest(word, names)
    if name and name != word:
        return [f"did you mean {name}?"]
    return [else_says] if else_says else []
