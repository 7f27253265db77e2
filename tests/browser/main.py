"""Tries the page in headless Chromium. With names of what is tried, only that."""
import sys
import tempfile
from pathlib import Path

sys.dont_write_bytecode = True
sys.path.insert(0, str(Path(__file__).resolve().parents[1] / "tool"))
from chromium import Browser
from mapped import Mapped
from otherwise import Otherwise
from pages_made import Made, pages_of
from printed import Printed
from tally import Tally


PRINTED = {"example": 12, "good": 10, "big": 40, "odd": 8, "grown": 12, "long names": 8}  # at most so many sheets
FOR_THE_BED = ["example", "silent", "ungrown", "big", "long names"]
ON_A_PHONE = ["example", "good", "grown", "wide", "big", "long names", "deep"]


def tried(*given):
    """What is tried, by name."""
    mapped, printed, otherwise = (kind(*given) for kind in (Mapped, Printed, Otherwise))
    made = given[2]
    return {
        "pages": lambda: [mapped.every(name) for name in made],
        "map": lambda: [mapped.map(), mapped.buttons()],
        "matched": mapped.matched,
        "drawn": mapped.drawn,
        "address": mapped.address,
        "huge": mapped.huge,
        "print": lambda: [printed.print(name, most) for name, most in PRINTED.items()],
        "sheets": lambda: [printed.sheet(name) for name in FOR_THE_BED],
        "scripts": lambda: [otherwise.without_scripts(name) for name in ("example", "plain", "good", "grown")],
        "narrow": lambda: [otherwise.narrow(name) for name in ON_A_PHONE],
        "hidden": otherwise.hidden,
    }


def main(wanted):
    tally = Tally("browser")
    with tempfile.TemporaryDirectory(prefix="cuhnavel-pages-") as folder:
        made = {name: Made(Path(folder), name, *of) for name, of in pages_of(Path(folder)).items()}
        big = made["big"]
        print(f"browser: the page of 64 x 64 cells and 512 links was made in {big.seconds:.1f} s and has {len(big.text.encode()):,} bytes")
        browser = Browser()
        try:
            for name, one in tried(tally, browser, made).items():
                if not wanted or name in wanted:
                    one()
        finally:
            browser.close()
    return 0 if tally.end(f"{tally.checked} checks of {len(made)} pages in Chromium") else 1


if __name__ == "__main__":
    sys.exit(main(sys.argv[1:]))
