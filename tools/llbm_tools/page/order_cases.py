"""Orders at random, two orders side by side, and what a failure and an idle worker say, in a browser."""

import json

from llbm_tools.page.page_driver import Page, check, same

# Two executions on one locked cache, one of which fails, and a merge of both: a second worker waits for the cache.
LOCKED = """op {
  exec {
    meta {
      args "/bin/sh"
      args "-c"
      args "append /c/l a && cp /c/l /o"
      cwd "/"
    }
    mounts {
      input -1
      dest "/"
    }
    mounts {
      input -1
      dest "/c"
      output -1
      mountType 3
      cacheOpt {
        ID "k"
        sharing 2
      }
    }
  }
}
"""


def exec_on_cache(script: str) -> str:
    """Returns the text of an execution on the locked cache."""
    return LOCKED.replace("append /c/l a && cp /c/l /o", script)


def exec_on_root(script: str) -> str:
    """Returns the text of an execution on the empty tree."""
    return exec_on_cache(script).partition('    mounts {\n      input -1\n      dest "/c"')[0] + "  }\n}\n"


def locked() -> str:
    """Returns the text of two executions on the locked cache and their merge."""
    inputs = "".join(f"  inputs {{\n    digest %{number}\n  }}\n" for number in range(2))
    parts = "    inputs {\n    }\n    inputs {\n      input 1\n    }\n"
    merge = f"op {{\n{inputs}  merge {{\n{parts}  }}\n}}\n"
    execs = exec_on_cache("append /c/l a && cp /c/l /oa") + exec_on_cache("append /c/l b && cp /c/l /ob")
    return execs + merge + "op {\n  inputs {\n    digest %2\n  }\n}\n"


def an_idle_worker_says_why(page: Page) -> None:
    """Lets worker 0 hold a locked cache: worker 1 says that it waits for that cache."""
    page.load()
    text = locked().encode()
    page.give_file("locked.text", text, "#definition-file")
    page.browser.wait("definition.value !== ''")
    page.submit()
    page.open_case(text, [], 2, True)
    page.click("step")
    page.choose("worker", "1")
    page.click("step")
    words = "vertex 1 waits for the locked cache k, which worker 0 holds for vertex 0."
    same(page.text("said"), f"Worker 1 can do nothing now: {words}", "why worker 1 is idle")
    page.check_answers()


def two_orders_side_by_side(page: Page) -> None:
    """Goes to the end in two orders at random, and compares them: plain vertices end the same."""
    page.example("tour", 3)
    page.click("shuffle")
    page.browser.wait("document.getElementById('said').textContent.includes('complete')")
    page.click("first")
    page.run("document.getElementById('seed').value = 7")
    page.click("shuffle")
    page.browser.wait("document.getElementById('said').textContent.includes('complete')")
    same(page.place(), (14, 14), "the end of the second order")
    page.check_answers()
    page.click("compare")
    page.browser.wait("document.getElementById('orders-said').textContent.includes('Of the')")
    said = page.text("orders-said")
    check(said.startswith("3 of 3 vertices ended the same in both orders"), said)
    check(said.endswith("Of the 3 without a cache mount at or before them, all ended the same."), said)


def orders_on_a_cache_differ(page: Page) -> None:
    """Runs two executions on one locked cache in both orders: what they read of it differs, and the page says so."""
    page.load()
    text = locked().encode()
    page.give_file("locked.text", text, "#definition-file")
    page.browser.wait("definition.value !== ''")
    page.submit()
    page.open_case(text, [], 2, True)
    page.click("go")
    page.click("first")
    page.run("document.getElementById('seed').value = 1")
    for seed in range(1, 20):
        page.run(f"document.getElementById('seed').value = {seed}")
        page.click("shuffle")
        page.browser.wait("document.getElementById('said').textContent.includes('complete')")
        claims = [line for line in page.record() if line.startswith("claim ")]
        if claims[0].endswith(" 1"):
            break
        page.click("first")
    page.choose("order", "0")
    page.click("compare")
    page.browser.wait("document.getElementById('orders-said').textContent.includes('Of the')")
    rows = page.run("[...document.querySelectorAll('#orders tr.differs')].map(row => row.lastChild.textContent)")
    check(len(rows) == 3 and all("differs, after a cache mount" in row for row in rows), str(rows))


def a_failure_names_its_command(page: Page) -> None:
    """Runs the example that fails: its settle has the command, and the trees that the vertex had are shown."""
    page.example("failure")
    page.run("document.getElementById('break-fail').click()")
    page.click("go")
    check("command 1: cp /none /b, status 1" in page.text("happened"), page.text("happened"))
    names = page.run("[...document.getElementById('tree-choice').options].map(option => option.textContent)")
    check("mount /, when it failed" in names, str(names))
    shown = page.run("[...document.querySelectorAll('#tree .path')].map(path => path.textContent)")
    check("a" in shown, f"the tree when it failed: {shown}")
    said = "The cause: there is no file /none. No step before it changed /none there."
    page.browser.wait(f"document.getElementById('cause').textContent === {json.dumps(said)}")
    page.check_answers()


def a_failure_names_what_touched_its_path(page: Page) -> None:
    """Runs two executions: the second reads what the first removed, and the page says by which event that was."""
    page.load()
    first, second = exec_on_root("write /a x && rm /a"), exec_on_root("true && cp /a /b").replace("input -1", "input 0")
    edge = "  inputs {\n    digest %0\n  }\n"
    text = first + second.replace("op {\n", f"op {{\n{edge}") + "op {\n  inputs {\n    digest %1\n  }\n}\n"
    page.give_file("touched.text", text.encode(), "#definition-file")
    page.browser.wait("definition.value !== ''")
    page.submit()
    page.open_case(text.encode(), [], 2, True)
    page.run("document.getElementById('break-fail').click()")
    page.click("go")
    removed = "/a was removed last by event 3: worker 0, vertex 0: command 1: rm /a, status 0."
    said = f"The cause: there is no file /a. {removed}"
    page.browser.wait(f"document.getElementById('cause').textContent === {json.dumps(said)}")
    page.click("back")
    page.browser.wait(f"document.getElementById('cause').textContent === {json.dumps(said)}")
    page.click("back")
    same(page.text("cause"), "", "the cause before the failure")
    page.check_answers()


# A file that an action makes and the next one removes, and a copy of it: which of both trees is copied from is open.
ACTIONS = """op {
  file {
    actions {
      input -1
      output -1
      mkfile {
        path "/a"
      }
    }
    actions {
      output -1
      rm {
        path "/a"
      }
    }
    actions {
      input %d
      output 0
      mkfile {
        path "/b"
      }
    }
  }
}
op {
  inputs {
    digest %%0
  }
  file {
    actions {
      input -1
      output 0
      mkdir {
        path "/a"
      }
    }
    actions {
      input %d
      secondaryInput %d
      output 1
      copy {
        src "/a"
        dest "/c/d"
        createDestPath %s
      }
    }
  }
}
op {
  inputs {
    digest %%1
  }
}
"""


def a_failed_action_says_why(page: Page) -> None:
    """Runs file ops: an action fails, and the page has its cause, and which event last changed the path in that tree.

    The tree that it copies from has no file, since an action removed it; in one where none has, nothing says so.
    """
    removed = "/a was removed last by event 3: worker 0, vertex 0: action 1: rm /a."
    source = "The cause: nothing is at /a in the tree that it copies from."
    for text, said in [
        (ACTIONS % (1, 1, 0, "true"), f"{source} {removed}"),
        (ACTIONS % (1, 1, -1, "true"), f"{source} No step before it changed /a there."),
        (ACTIONS % (0, 1, 0, "false"), "The cause: there is no directory /c. No step before it changed /c there."),
    ]:
        page.load()
        page.give_file("actions.text", text.encode(), "#definition-file")
        page.browser.wait("definition.value !== ''")
        page.submit()
        page.open_case(text.encode(), [], 2, True)
        page.run("document.getElementById('break-fail').click()")
        page.click("go")
        page.browser.wait(f"document.getElementById('cause').textContent === {json.dumps(said)}")
        happened = page.text("happened")
        check("by event 8: worker 0, vertex 1: action 1 (copy /a /c/d) fails" in happened, happened)
        page.click("back")
        page.browser.wait(f"document.getElementById('cause').textContent === {json.dumps(said)}")
        page.click("back")
        same(page.text("cause"), "", "the cause before the failure")
        page.check_answers()


def a_reload_keeps_the_session(page: Page) -> None:
    """Steps, and loads the page again by its address: the session is where it was."""
    page.example("tour")
    for _ in range(4):
        page.click("next")
    page.browser.wait("document.body.dataset.kept === '4'")
    record = page.record()
    link = str(page.run("location.hash"))
    page.example("merge")
    page.load(link)
    same(page.record(), record, "the record after a reload")
    check(not page.run("document.getElementById('open-view').open"), "the view Open is shown")


CASES = (
    an_idle_worker_says_why, two_orders_side_by_side, orders_on_a_cache_differ, a_failure_names_its_command,
    a_failure_names_what_touched_its_path, a_failed_action_says_why, a_reload_keeps_the_session,
)  # fmt: skip
