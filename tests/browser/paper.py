"""What a printed page is: the sizes of its sheets, from the bytes of the PDF."""
import re

A4 = (595, 842)  # points


def sheets(pdf):
    """The width and height of each sheet, in points."""
    kinds = re.findall(rb"/Type\s*/Page\b[^s]", pdf)
    boxes = [tuple(map(float, box.split())) for box in re.findall(rb"/MediaBox\s*\[([^\]]+)\]", pdf)]
    if len(boxes) != len(kinds):
        raise ValueError("the PDF has pages without size")
    return [(right - left, top - bottom) for left, bottom, right, top in boxes]


def is_a4(sheet):
    return all(abs(got - wanted) < 2 for got, wanted in zip(sheet, A4))
