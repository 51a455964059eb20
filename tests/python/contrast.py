"""The contrast between two colours, and the least of a text."""

# Each text colour stands on `paper`, and on `panel` behind commands, outputs and heads of tables.
TEXTS = ("ink", "soft", "link", "done", "failed", "doubt", "pending", "untouched", "open")
LEAST = 4.5  # the contrast of each text


def luminance(colour):
    """Returns the relative luminance of a colour, #rrggbb, as WCAG 2 defines it."""
    parts = [int(colour[k:k + 2], 16) / 255 for k in (1, 3, 5)]
    red, green, blue = (it / 12.92 if it <= 0.04045 else float(((it + 0.055) / 1.055) ** 2.4)
                        for it in parts)
    return 0.2126 * red + 0.7152 * green + 0.0722 * blue


def contrast(one, other):
    """Returns the contrast of two colours, 1 to 21."""
    low, high = sorted((luminance(one), luminance(other)))
    return (high + 0.05) / (low + 0.05)
