"""Dockerfiles as projects have them, without RUN, with their contexts: links in node_modules, files that are added,
heredocs, owners by name, `--parents`, `--exclude`, a .dockerignore and archives."""

import io
import tarfile

from llbm_tools.daemon.runs import link_to
from llbm_tools.daemon.random_dockerfiles import Made
from llbm_tools.trees import tree_maps
from llbm_tools.trees.tree_maps import ROOT, Tree

NODE = """\
FROM scratch AS base
COPY <<EOF /etc/passwd
root:x:0:0::/root:/bin/sh
node:x:1000:1000::/home/node:/bin/sh
EOF
COPY <<EOF /etc/group
root:x:0:
node:x:1000:
EOF
FROM base
USER node
WORKDIR /srv/app
COPY --chown=node:node package.json ./
COPY --chown=node:node node_modules ./node_modules
COPY --chown=node --exclude=**/*.test.js src ./src
ADD --chown=0:0 config/default.json /etc/app/
COPY node_modules/.bin/tool /usr/local/bin/tool
COPY <<-EOF /etc/app/start.sh
	#!/bin/sh
	exec node /srv/app/src/index.js
EOF
"""
MONOREPO = """\
FROM scratch AS manifests
COPY --parents packages/*/package.json ./
COPY --parents ./packages/./web/src/index.js /pivot/
FROM scratch
COPY --from=manifests / /deps/
COPY packages /app/packages
COPY --exclude=*.md --exclude=web/src . /rest/
"""
SITE = """\
FROM scratch AS build
COPY current/ /site/
COPY releases/2/index.html /site/second.html
ADD assets/*.css /site/css/
FROM scratch
COPY --link --from=build /site /usr/share/html
COPY --chmod=0644 assets/logo.svg /usr/share/html/
COPY current/index.html /usr/share/html/first.html
"""
ROOTFS = """\
FROM scratch AS rootfs
COPY rootfs /
COPY tool /bin/tool
COPY lib.so /usr/lib64/
WORKDIR /var/run/app
FROM rootfs
COPY --from=rootfs /bin/tool /var/run/app/tool
COPY --from=rootfs /lib /libs
COPY tool /lib/
"""
# The second pattern of .dockerignore takes tool/main, which the third one, again, does not let the client open: it is
# sent empty.
IGNORED = """\
FROM scratch
COPY tool /tool
COPY . /all
"""
# The first archive has entries without their directories, in one with the set-group bit and through a link, and a
# directory where a file is; the second one a file where a directory is, and a path that leads above.
ARCHIVES = """\
FROM scratch
COPY --chmod=2775 base /
ADD --chown=7:8 first.tar second.tar /to/
"""
PYTHON = """\
FROM scratch AS wheels
ADD wheels /wheels
FROM scratch
WORKDIR /app
COPY --from=wheels /wheels/*.whl /wheels/
COPY --chown=10001:10001 --chmod=755 . .
ADD requirements.txt pyproject.toml ./
"""


def context(entries: dict[str, str]) -> Tree:
    """Returns a tree of files and links: `-> TARGET` is a link."""
    tree: Tree = {(): ROOT}
    for text, content in entries.items():
        is_link = content.startswith("-> ")
        tree_maps.add(tree, text, link_to(content[3:]) if is_link else tree_maps.file_of(content))
    return tree


def archive(entries: dict[str, str]) -> str:
    """Returns a tar archive of files and directories: the path of a directory ends in `/`."""
    made = io.BytesIO()
    with tarfile.open(fileobj=made, mode="w", format=tarfile.GNU_FORMAT) as opened:
        for path, content in entries.items():
            one = tarfile.TarInfo(path)
            one.mode, one.uid, one.size = 0o750, 3, len(content)
            one.type = tarfile.DIRTYPE if path.endswith("/") else tarfile.REGTYPE
            opened.addfile(one, io.BytesIO(content.encode()))
    return made.getvalue().decode("ascii")


PROJECTS = {
    "node": Made(NODE.encode(), context({
        "package.json": "{}", "node_modules/tool/cli.js": "cli", "node_modules/.bin/tool": "-> ../tool/cli.js",
        "node_modules/.bin/gone": "-> ../gone/cli.js", "node_modules/linked": "-> ../packages/linked",
        "src/index.js": "index", "src/index.test.js": "test", "src/lib/a.js": "a", "src/lib/a.test.js": "test",
        "config/default.json": "{}", ".dockerignore": "**/gone\n",
    })),
    "monorepo": Made(MONOREPO.encode(), context({
        "packages/web/package.json": "web", "packages/web/src/index.js": "index", "packages/api/package.json": "api",
        "packages/api/node_modules/web": "-> ../../web", "packages/README.md": "readme", "README.md": "readme",
        "web/src/x": "x", "web/y": "y",
    })),
    "site": Made(SITE.encode(), context({
        "releases/1/index.html": "one", "releases/2/index.html": "two", "current": "-> releases/1",
        "assets/a.css": "a", "assets/b.css": "-> a.css", "assets/logo.svg": "-> ../releases/2/index.html",
    })),
    "rootfs": Made(ROOTFS.encode(), context({
        "rootfs/usr/bin/sh": "sh", "rootfs/bin": "-> usr/bin", "rootfs/lib": "-> usr/lib", "rootfs/usr/lib/a.so": "a",
        "rootfs/usr/lib64": "-> lib", "rootfs/run/x": "x", "rootfs/var/run": "-> ../run",
        "rootfs/etc/mtab": "-> /proc/mounts", "tool": "tool", "lib.so": "lib",
    })),
    "ignored": Made(IGNORED.encode(), context({
        "tool/main": "main", "tool/other": "other", "x": "x", "y": "-> x", ".dockerignore": "tool\n!tool/main\ntool\n",
    })),
    "archives": Made(ARCHIVES.encode(), context({
        "base/to/shared/x": "x", "base/to/target/x": "x", "base/to/link": "-> /target", "base/to/file": "x",
        "first.tar": archive({"shared/new/file": "new", "link/file": "file", "file/": ""}),
        "second.tar": archive({"file": "file", "../above": "above"}),
    })),
    "python": Made(PYTHON.encode(), context({
        "wheels/a-1.whl": "a", "wheels/latest.whl": "-> a-1.whl", "wheels/notes.txt": "n", "app/__init__.py": "",
        "requirements.txt": "a\n", "pyproject.toml": "[project]\n", "app/current": "-> .",
        "venv/bin/python": "-> /usr/bin/python3",
    })),
}  # fmt: skip
