"""Conditions in Rust that say what the comments of examples say: that a place, mostly the name that
a statement binds, has a value. Each is a `prove!`, or a call of a function of .ci/says: a check
proves it, and a run stops at the first that is false."""

import re

# The end of a `match` of what is there.
UNREACHABLE = "} _ => unreachable!() }"


def split(text):
    """Splits values that `, ` and ` and ` separate, outside of brackets and texts."""
    values, depth, quote, start, at = [], 0, "", 0, 0
    while at < len(text):
        mark = text[at]
        if quote:
            quote = "" if mark == quote else quote
        elif mark in "\"'":
            quote = mark
        else:
            depth += (mark in "([{") - (mark in ")]}")
            end = re.match(r", (?:and )?| and ", text[at:])
            if end and not depth:
                values.append(text[start:at])
                start = at = at + len(end[0])
                continue
        at += 1
    return [*values, text[start:]]


def is_plain(value):
    """Returns whether `==` compares with what the comment writes."""
    names = re.findall(r"[A-Z]\w*", re.sub(r'".*?"|\'.*?\'', "", value))
    return not re.search(r"[\[{]", value) and {*names} <= {"Some", "None", "Wrapping"}


def conditions(place, value, kind):
    """Returns the conditions that the place has this value. `kind` says which collections are
    meant: those of a file of .ci/says; or the type of replies; or "" or "std" for others."""
    if kind.endswith("Reply"):
        value = re.sub(rf"(?<!:)\b(?!Some|None|{kind})(?=[A-Z])", f"{kind}::", value)
    around = re.fullmatch(r"([A-Z][\w:]*)\((.*)\)", value)
    inside, place_read = value[1:-1], place.removeprefix("*")
    lent = place_read if place_read == "it" else f"&{place_read}"
    if around and (not is_plain(value) or kind == "text" and '"' in value):
        inner = "*it" if is_plain(around[2]) else "it"
        inner = "it.get()" if around[1].endswith("::Len") else inner
        within = conditions(inner, around[2], kind)
        return [f"match {lent} {{ {around[1]}(it) => {{", *within, UNREACHABLE]
    if value in ("true", "false"):
        return [f"prove!({'' if value == 'true' else '!'}{place});"]
    if value == "None":
        return [f"prove!({place_read}.is_none());"]
    if re.fullmatch(r"[A-Z][\w:]*", value):
        return [f"prove!(matches!({place}, {value}));"]
    if re.fullmatch(r"\w+/\w+", value):
        return [f'prove!({place}.to_str() == Some("{value}"));']
    if value in ("[]", "{}"):
        return [f"prove!({place_read}.is_empty());"]
    if value[0] == "{":
        return keyed(place_read, lent, split(inside), kind)
    if value[:2] == "[[":
        return in_order(f"{place_read}.iter()", split(inside), kind)
    if value[0] == "[" and kind in ("queue", "std_queue", "heap"):
        return [f"says::{kind}({lent}, &{value});"]
    if value[0] == "[":
        return [f"says::list({place_read}.as_slice(), &{value});"]
    if value[:2] == "&[":
        return [f"says::list({place_read}, {value});"]
    if value[0] == "&":
        return conditions(f"*{place}", value[1:], kind)
    if value[0] == '"' and kind == "text":
        return [f"says::text({place_read}.as_str(), {value});"]
    return [f"prove!({place} == {value});"]


def in_order(source, values, kind):
    """Returns the conditions that an iterator yields these values, and ends."""
    each = [line for it in values for line in conditions("each.next()", f"Some({it})", kind)]
    return ["{", f"let mut each = {source};", *each, "prove!(each.next().is_none());", "}"]


def in_any_order_of(source, values, _):
    """Returns the conditions that an iterator yields these values in some order."""
    each = [f"prove!(found.contains(&{it}));" for it in values]
    found = f"let found = Vec::from_iter(alloc, {source})?;"
    return ["{", found, *each, f"prove!(found.len() == {len(values)});", "}"]


def keyed(place, lent, entries, kind):
    """Returns the conditions that a map or a set has these entries and no other."""
    pairs = [split(it.replace(": ", ", ")) for it in entries]
    is_map, by_text = len(pairs[0]) > 1, entries[0][0] == '"'
    if kind in ("tree", "index") and not by_text:
        shown = ", ".join(f"({', '.join(it)})" if is_map else it[0] for it in pairs)
        return [f"says::{kind}_{'map' if is_map else 'set'}({lent}, &[{shown}]);"]
    key = "" if by_text else "&"
    found = [
        f"prove!({place}.get({key}{it[0]}) == Some(&{it[1]}));"
        if is_map
        else f"prove!({place}.contains({key}{it[0]}));"
        for it in pairs
    ]
    return [*found, f"prove!({place}.len(){'' if kind == 'std' else '.get()'} == {len(pairs)});"]
