"""Tests in the browser of what the page says of the proof of its machine, and where there is no machine."""

import pathlib
import tempfile

from llbm_tools.page import assets, server, wasm_module
from llbm_tools.page.page_driver import READY, Page, check, same


def shown_with(page: Page, module: bytes | None) -> tuple[str, str, str]:
    """Returns whether the page with a module is ready, what it says of proof, and its message."""
    with tempfile.TemporaryDirectory(prefix="llbm-module-") as folder:
        place = pathlib.Path(folder, assets.MODULE)
        if module is not None:
            place.write_bytes(module)
        site = server.Site(assets.files(None), place, [], lambda _: [])
        with server.serving(site, 0) as link:
            page.browser.go(link, READY)
            proof = "" if page.run("document.getElementById('unproved').hidden") else page.text("unproved")
            return str(page.run(READY)), proof, page.text("said")


def what_is_said_of_proof(page: Page) -> None:
    """Opens the page with a module that is proved, one that is not, one that says nothing, and without one."""
    module = (page.folder / assets.MODULE).read_bytes()
    bare = wasm_module.without_proof(module)
    same(shown_with(page, wasm_module.with_proof(bare, True)), ("yes", "", ""), "a proved module")
    ready, proof, _ = shown_with(page, wasm_module.with_proof(bare, False))
    check(ready == "yes" and proof.startswith("Not proved: ") and "dev/dev wasm" in proof, proof)
    ready, proof, _ = shown_with(page, bare)
    check(ready == "yes" and "is not known" in proof, proof)
    page.awaited.append("404 (Not Found)")
    ready, _, said = shown_with(page, None)
    check(ready == "no" and "llbm.wasm" in said and "dev/dev wasm --unproved makes one without proof" in said, said)


CASES = (what_is_said_of_proof,)
