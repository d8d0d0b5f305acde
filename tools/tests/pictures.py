"""Makes the pictures of the documents: docs/pictures/panel.png and page.png.

usage: python3 tools/tests/pictures.py PROGRAM"""
import os
import pathlib
import subprocess
import sys
import tempfile

sys.dont_write_bytecode = True
import browser

TOP = pathlib.Path(__file__).resolve().parent.parent.parent
EXAMPLES = TOP / "examples"
PICTURES = TOP / "docs" / "pictures"
LARGEST = 100_000  # bytes


def picture(chromium, address, name, width, height, ready, seen):
    """A picture of a page from the element on that is to be seen at its top."""
    page = chromium.page(address)
    page.size(width, height)
    page.wait_for(ready)
    page.value(f"document.querySelector({seen!r}).scrollIntoView()")
    path = PICTURES / name
    page.picture(path, is_whole=False)
    page.close()
    size = path.stat().st_size
    if size >= LARGEST:
        sys.exit(f"{name}: {size} bytes are too many")
    print(f"{name}: {size} bytes")


def main(program):
    """Both, of the examples."""
    os.environ["SCR"] = str(pathlib.Path(program).resolve())
    tools = TOP / "tools"
    words = [tools / "panel", EXAMPLES / "safety.scr", EXAMPLES / "safety.script", EXAMPLES / "safety.assert"]
    panel = subprocess.Popen([str(it) for it in words], stdout=subprocess.PIPE, text=True)
    with browser.Browser() as chromium, tempfile.TemporaryDirectory() as room:
        address = panel.stdout.readline().strip()
        picture(chromium, address, "panel.png", 1000, 800, "document.body.dataset.cells", "header")
        page = pathlib.Path(room) / "page.html"
        with page.open("w") as file:
            subprocess.run([str(tools / "html"), str(EXAMPLES / "double.scr")], stdout=file, check=True)
        picture(chromium, page.as_uri(), "page.png", 900, 760, "true", "#tables")
    panel.wait()


if __name__ == "__main__":
    if len(sys.argv) != 2:
        sys.exit(__doc__)
    main(sys.argv[1])
