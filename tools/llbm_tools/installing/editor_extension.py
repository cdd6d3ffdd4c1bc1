"""Packs the extension for VS Code, with the adapter that it starts, as a `.vsix` file.

The file is an archive of zip with the description of the extension, and below `extension/` package.json, the tools as
an installation has them, and the page that explains faults. The same files always make the same bytes.
"""

import io
import json
import pathlib
import zipfile
from collections.abc import Iterable
from xml.sax.saxutils import quoteattr

TIME = (1980, 1, 1, 0, 0, 0)
INSIDE = "extension"
ADAPTER = "llbm-tools"
OTHER_TYPE = "application/octet-stream"
TYPES = {".json": "application/json", ".md": "text/markdown", ".py": "text/x-python", ".vsixmanifest": "text/xml"}
XML = '<?xml version="1.0" encoding="utf-8"?>\n'

Object = dict[str, object]


def content_types(paths: Iterable[str]) -> str:
    """Returns the list of the types of all files, by their endings, and by their paths if they have none."""
    endings = {pathlib.PurePosixPath(path).suffix for path in paths} - {""}
    lines = [
        f'<Default Extension="{ending[1:]}" ContentType="{TYPES.get(ending, OTHER_TYPE)}"/>'
        for ending in sorted(endings | {".vsixmanifest"})
    ]
    bare = [path for path in paths if not pathlib.PurePosixPath(path).suffix]
    lines += [f'<Override PartName={quoteattr(f"/{path}")} ContentType="{OTHER_TYPE}"/>' for path in sorted(bare)]
    space = "http://schemas.openxmlformats.org/package/2006/content-types"
    return f'{XML}<Types xmlns="{space}">\n' + "".join(f"{line}\n" for line in lines) + "</Types>\n"


def manifest(package: Object, engine: str) -> str:
    """Returns the description of the extension."""
    named = {name: quoteattr(str(package[name])) for name in ("name", "version", "publisher")}
    return f"""{XML}<PackageManifest Version="2.0.0" xmlns="http://schemas.microsoft.com/developer/vsx-schema/2011">
<Metadata>
<Identity Language="en-US" Id={named["name"]} Version={named["version"]} Publisher={named["publisher"]}/>
<DisplayName>{package["displayName"]}</DisplayName>
<Description xml:space="preserve">{package["description"]}</Description>
<Categories>Debuggers</Categories>
<Properties><Property Id="Microsoft.VisualStudio.Code.Engine" Value={quoteattr(engine)}/></Properties>
</Metadata>
<Installation><InstallationTarget Id="Microsoft.VisualStudio.Code"/></Installation>
<Dependencies/>
<Assets><Asset Type="Microsoft.VisualStudio.Code.Manifest" Path="{INSIDE}/package.json" Addressable="true"/></Assets>
</PackageManifest>
"""


def packaged(text: str, version: str) -> tuple[str, str]:
    """Returns package.json for a version, with the adapter inside of the extension, and the description of it."""
    package = json.loads(text)
    package["version"] = f"{version}.0"
    package["contributes"]["debuggers"][0]["program"] = f"./{ADAPTER}"
    return json.dumps(package, indent=2) + "\n", manifest(package, package["engines"]["vscode"])


def packed(package_text: str, version: str, files: dict[str, bytes]) -> bytes:
    """Returns the extension for a version of two numbers, with these files, by their paths inside of it."""
    package, description = packaged(package_text, version)
    inside = {"package.json": package.encode("utf-8"), **files}
    held = {f"{INSIDE}/{path}": content for path, content in inside.items()}
    held["extension.vsixmanifest"] = description.encode("utf-8")
    held["[Content_Types].xml"] = content_types(held).encode("utf-8")
    output = io.BytesIO()
    with zipfile.ZipFile(output, "w", zipfile.ZIP_DEFLATED) as archive:
        for path, content in sorted(held.items()):
            entry = zipfile.ZipInfo(path, TIME)
            entry.compress_type, entry.external_attr = zipfile.ZIP_DEFLATED, 0o100644 << 16
            archive.writestr(entry, content)
    return output.getvalue()
