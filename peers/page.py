"""How the page's tables are printed."""


def print_table(heads, rows):
    print("| " + " | ".join(heads) + " |")
    print("|" + "---|" * len(heads))
    for row in rows:
        print("| " + " | ".join(f"{one:,}" if isinstance(one, int) else one for one in row) + " |")


def short(complaint):
    return " ".join(complaint.split(". Contact")[0].split()).removesuffix(" (Exception occurred)")


def said(seen):
    """What tshark says of a component, apart from what it shows."""
    texts = seen.missing + [short(text) for text in dict.fromkeys(seen.complaints)]
    return "; ".join(f"`{text}`" for text in texts) or "nothing"
