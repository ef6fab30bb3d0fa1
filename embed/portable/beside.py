"""What lies beside a package: its bill of materials (SPDX 2.3, in JSON), and the checksums of all that a folder has."""
import datetime
import glob
import hashlib
import io
import json
import os
import re
import subprocess
import tarfile
import uuid

NONE = "NOASSERTION"
ENDINGS = (".tar.gz", ".tar.xz", ".deb", ".spdx.json", ".mk")


class Differs(Exception):
    """What differs from the package."""


def checksum(path):
    with open(path, "rb") as file:
        return hashlib.sha256(file.read()).hexdigest()


def opened(package):
    """The tar file that a package is, or has."""
    if not package.endswith(".deb"):
        return tarfile.open(package)
    said = subprocess.run(["dpkg-deb", "--fsys-tarfile", package], capture_output=True, check=True)
    return tarfile.open(fileobj=io.BytesIO(said.stdout))


def members(package):
    """Each file of a package by its path, with its bytes; a link has those of the file that it leads to."""
    with opened(package) as file:
        return {os.path.normpath(it.name): file.extractfile(it).read() for it in file if not it.isdir()}


def file_of(number, name, content):
    sums = [{"algorithm": it.upper(), "checksumValue": hashlib.new(it, content).hexdigest()} for it in ("sha1", "sha256")]
    return {"SPDXID": f"SPDXRef-File-{number}", "fileName": f"./{name}", "checksums": sums, "licenseConcluded": NONE, "copyrightText": NONE}


def part(name, words, **more):
    """A package of SPDX: the one that is described, or what it is made by."""
    said = {"SPDXID": f"SPDXRef-{re.sub('[^A-Za-z0-9.-]', '-', name)}", "name": name, "downloadLocation": NONE, "licenseConcluded": NONE}
    return said | {"licenseDeclared": NONE, "copyrightText": NONE, "filesAnalyzed": False, **words, **more}


def bill(package, release, source, made_by):
    """The bill of materials of a package: its files with their checksums, the commit, and by what it was made."""
    name = os.path.basename(package)
    files = [file_of(number, *it) for number, it in enumerate(sorted(members(package).items()), 1)]
    ones = sorted(it["checksums"][0]["checksumValue"] for it in files)
    code = {"packageVerificationCodeValue": hashlib.sha1("".join(ones).encode()).hexdigest()}
    whole = {"versionInfo": release.version, "packageFileName": name, "filesAnalyzed": True, "packageVerificationCode": code}
    whole |= {"checksums": [{"algorithm": "SHA256", "checksumValue": checksum(package)}], "hasFiles": [it["SPDXID"] for it in files]}
    parts = [part("qtree", whole, sourceInfo=f"made of {source}")] + [part(it, {}) for it in made_by]
    relations = [("SPDXRef-DOCUMENT", "DESCRIBES", "SPDXRef-qtree")]
    relations += [(it["SPDXID"], "BUILD_TOOL_OF", "SPDXRef-qtree") for it in parts[1:]]
    when = datetime.datetime.fromtimestamp(release.moment, datetime.timezone.utc).strftime("%Y-%m-%dT%H:%M:%SZ")
    space = f"https://spdx.org/spdxdocs/{name}-{uuid.uuid5(uuid.NAMESPACE_OID, checksum(package))}"
    head = {"spdxVersion": "SPDX-2.3", "dataLicense": "CC0-1.0", "SPDXID": "SPDXRef-DOCUMENT", "name": name, "documentNamespace": space}
    made = {"created": when, "creators": ["Tool: qtree-tools-package"]}
    relations = [dict(zip(("spdxElementId", "relationshipType", "relatedSpdxElement"), it)) for it in relations]
    return head | {"creationInfo": made, "packages": parts, "files": files, "relationships": relations}


def lay_beside(package, release, source, made_by):
    """Writes the bill of a package beside it, and the checksums of the folder anew."""
    with open(f"{package}.spdx.json", "w", encoding="utf-8") as file:
        json.dump(bill(package, release, source, made_by), file, indent=1)
        file.write("\n")
    write_sums(os.path.dirname(package))


def write_sums(folder):
    names = sorted(os.path.basename(it) for it in glob.glob(f"{folder}/*qtree*") if it.endswith(ENDINGS))
    with open(f"{folder}/.SHA256SUMS", "w", encoding="utf-8") as file:
        file.writelines(f"{checksum(f'{folder}/{it}')}  {it}\n" for it in names)
    os.replace(f"{folder}/.SHA256SUMS", f"{folder}/SHA256SUMS")


def check(package, root):
    """The checksums are those of the files; the bill is JSON, and has each file below the root, where the package was unpacked; and all
    files have one time, that of the commit."""
    folder, name = os.path.split(package)
    said = subprocess.run(["sha256sum", "--quiet", "--strict", "-c", "SHA256SUMS"], cwd=folder, capture_output=True, text=True, check=False)
    with open(f"{folder}/SHA256SUMS", encoding="utf-8") as file:
        summed = {it.split()[1] for it in file}
    if said.returncode or not {name, f"{name}.spdx.json"} <= summed:
        raise Differs(f"SHA256SUMS is not that of {name}: {(said.stdout + said.stderr).strip()}")
    with open(f"{package}.spdx.json", encoding="utf-8") as file:
        told = json.load(file)
    listed = {it["fileName"][2:]: it["checksums"][1]["checksumValue"] for it in told["files"]}
    there = {}
    for at, folders, files in os.walk(root):
        links = [it for it in folders if os.path.islink(f"{at}/{it}")]
        there |= {os.path.relpath(f"{at}/{it}", root): checksum(f"{at}/{it}") for it in [*files, *links]}
    if listed != there:
        other = sorted({*listed.items()} ^ {*there.items()})[0][0]
        raise Differs(f"{name}.spdx.json does not have the files of the package: {other}")
    with opened(package) as file:
        if len({it.mtime for it in file}) != 1:
            raise Differs(f"the files of {name} have times of their own, so that each build of it differs")
    if told["packages"][0]["checksums"][0]["checksumValue"] != checksum(package):
        raise Differs(f"{name}.spdx.json is of another package")
