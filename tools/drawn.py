"""What the tools that draw a picture of docs/ share: with `--write` the picture is written, and in any case the
committed one has to be what is drawn."""
import pathlib
import sys


def held(picture: pathlib.Path, drawn: str, source: str) -> int:
    """The status, once the verdict is printed; `source` names what the picture is drawn from."""
    if "--write" in sys.argv[1:]:
        picture.write_text(drawn, encoding="utf-8")
    good = picture.is_file() and picture.read_text(encoding="utf-8") == drawn
    if not good:
        print(f"docs/{picture.name} is not what {source} gives: {sys.argv[0]} --write draws it")
    print("1 passed, 0 failed" if good else "0 passed, 1 failed")
    return 0 if good else 1
