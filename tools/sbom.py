#!/usr/bin/env python3
"""The list of what the programs are built of, an SPDX 2.3 document in JSON: sbom.spdx.json of tools/package.

tools/sbom.py FILE [PROGRAM..]  says what is wrong with such a document, or that a program's bytes aren't those that it
                                names, a line each, with status 1
tools/sbom.py --self-test       tries that on documents that it has to refuse

It has the release, each program with its SHA-256, the toolchain, and each library of it that the program stands on by
crates.txt, with the version and the licence that stand in tools/libraries. What these libraries stand on in turn isn't
listed by itself: it is part of the toolchain.
"""
import copy
import hashlib
import json
import os
import re
import sys
import time
import uuid

ROOT = os.path.dirname(os.path.dirname(os.path.abspath(__file__)))
NAME = "sbom.spdx.json"
MAINTAINER = "Organization: Raxunto maintainers (maintainers@users.noreply.raxunto.example)"
DOCUMENT, RELEASE, TOOLCHAIN = "SPDXRef-DOCUMENT", "SPDXRef-raxunto", "SPDXRef-toolchain"
NONE = "NOASSERTION"
LICENCES = {"Apache-2.0", "BSD-3-Clause", "MIT", "Unlicense"}
# What relationships there are here, of those that SPDX has.
KINDS = {"DESCRIBES", "PACKAGE_OF", "STATIC_LINK", "BUILD_TOOL_OF"}
MOMENT = r"\d{4}-\d\d-\d\dT\d\d:\d\d:\d\dZ"
# The fields that a document, and each package, has to have here, with the form of each.
DOCUMENT_FIELDS = {
    "spdxVersion": r"SPDX-2\.3",
    "dataLicense": r"CC0-1\.0",
    "SPDXID": DOCUMENT,
    "name": r"\S+",
    "documentNamespace": r"[a-z][a-z0-9+.-]*:[^#\s]+",
}
PACKAGE_FIELDS = {
    "SPDXID": r"SPDXRef-[A-Za-z0-9.-]+",
    "name": r"\S+",
    "versionInfo": r"\S.*",
    "downloadLocation": NONE,
    "licenseConcluded": r"\S.*",
    "licenseDeclared": r"\S.*",
    "copyrightText": r"\S.*",
}


def rows(path):
    """Yields the rows of a list: what stands between the colons of each line that isn't a comment."""
    with open(f"{ROOT}/{path}", encoding="utf-8") as text:
        for line in text:
            line = line.split("#")[0].strip()
            if line:
                yield [word.strip() for word in line.split(":")]


def stands_on(crates):
    """Returns the toolchain's libraries that crates stand on."""
    uses = {name: words.split() for name, words in rows("crates.txt")}
    rest, seen = list(crates), set()
    while rest:
        name = rest.pop()
        if name not in seen:
            seen.add(name)
            rest += uses.get(name, [])
    return sorted(seen - uses.keys())


def libraries():
    """Returns the toolchain's name and version, and what is said of each library of it."""
    (_, toolchain), *listed = rows("tools/libraries")
    return toolchain.split(), {name: (ported, licence) for name, ported, licence in listed}


def differences(crates):
    """Yields where tools/libraries lists others than those that the crates stand on."""
    wanted, listed = set(stands_on(crates)), set(libraries()[1])
    yield from (f"tools/libraries lacks {name}" for name in sorted(wanted - listed))
    yield from (f"tools/libraries has {name}, which no program stands on" for name in sorted(listed - wanted))


def package(name, version, licence, **more):
    """Returns what is said of a package."""
    return {
        "SPDXID": more.pop("ref"),
        "name": name,
        "versionInfo": version,
        "downloadLocation": NONE,
        "filesAnalyzed": False,
        "licenseConcluded": NONE,
        "licenseDeclared": licence,
        "copyrightText": NONE,
        **more,
    }


def reference(kind, name):
    """Returns the identifier of a package, which has no underscores."""
    return f"SPDXRef-{kind}-{name.replace('_', '-')}"


def packages(version, sums, needed):
    """Returns all packages, with a program's SHA-256 by its name, and the libraries that are needed."""
    (kit, number), said = libraries()
    release = package("raxunto", version, "Apache-2.0", ref=RELEASE, supplier=MAINTAINER)
    its = "Its compilers build the programs; its standard library and its C library are linked into them."
    found = [release, package(kit, number, NONE, ref=TOOLCHAIN, primaryPackagePurpose="APPLICATION", comment=its)]
    for name, digest in sorted(sums.items()):
        more = {"packageFileName": name, "primaryPackagePurpose": "APPLICATION", "supplier": MAINTAINER}
        more["checksums"] = [{"algorithm": "SHA256", "checksumValue": digest}]
        found.append(package(name, version, "Apache-2.0", ref=reference("program", name), **more))
    for name in needed:
        ported, licence = said[name]
        if ported == "-":
            why, its_version = f"A library of {kit} {number}, and no port.", number
        else:
            why, its_version = f"The port of the Rust crate {ported} in {kit} {number}.", ported.split()[1]
        more = {"primaryPackagePurpose": "LIBRARY", "comment": why}
        found.append(package(name, its_version, licence, ref=reference("library", name), **more))
    return found


def relationships(crates):
    """Returns how the packages are related, with each program's crate by its name."""
    triples = [(DOCUMENT, "DESCRIBES", RELEASE)]
    for name, crate in sorted(crates.items()):
        program = reference("program", name)
        triples += [(program, "PACKAGE_OF", RELEASE), (TOOLCHAIN, "BUILD_TOOL_OF", program)]
        triples += [(program, "STATIC_LINK", reference("library", it)) for it in stands_on([crate])]
    return [{"spdxElementId": one, "relationshipType": kind, "relatedSpdxElement": to} for one, kind, to in triples]


def document(name, version, sums, crates, origin):
    """Returns the document of a release as text: of programs with these SHA-256 and crates by their names, and with its
    origin, a commit and its moment. The same release gives the same text."""
    commit, moment = origin
    crates = {it: crates[it] for it in sums}
    told = {
        "spdxVersion": "SPDX-2.3",
        "dataLicense": "CC0-1.0",
        "SPDXID": DOCUMENT,
        "name": name,
        "documentNamespace": "",
        "creationInfo": {
            "created": time.strftime("%Y-%m-%dT%H:%M:%SZ", time.gmtime(moment)),
            "creators": ["Tool: raxunto-tools-package", MAINTAINER],
        },
        "comment": f"Of commit {commit}. What the listed libraries stand on in turn is part of the toolchain.",
        "packages": packages(version, sums, stands_on(crates.values())),
        "relationships": relationships(crates),
    }
    told["documentNamespace"] = uuid.uuid5(uuid.NAMESPACE_URL, json.dumps(told, sort_keys=True)).urn
    return json.dumps(told, indent=2) + "\n"


def is_licence(text):
    """Returns whether a text is NOASSERTION, or licences of those that are known here, joined by AND or OR."""
    words = text.split(" ")
    return text == NONE or set(words[::2]) <= LICENCES and set(words[1::2]) <= {"AND", "OR"} and len(words) % 2 == 1


def ill_formed(what, of, fields):
    """Yields the fields that lack, or have another form."""
    for field, form in fields.items():
        if not isinstance(of.get(field), str) or not re.fullmatch(form, of[field]):
            yield f"{what}: {field} is {of.get(field)!r}"


def package_faults(it):
    """Yields what is wrong with a package."""
    what = it.get("SPDXID") or it.get("name") or "a package"
    yield from ill_formed(what, it, PACKAGE_FIELDS)
    if it.get("filesAnalyzed") is not False or "packageVerificationCode" in it:
        yield f"{what}: its files are analyzed"
    for field in ("licenseConcluded", "licenseDeclared"):
        if not is_licence(str(it.get(field))):
            yield f"{what}: {field} is no licence"
    if str(what).startswith("SPDXRef-program-") and not it.get("checksums"):
        yield f"{what}: no checksum"
    for one in it.get("checksums", []):
        if one.get("algorithm") != "SHA256" or not re.fullmatch(r"[0-9a-f]{64}", str(one.get("checksumValue"))):
            yield f"{what}: checksum {one}"


def relationship_faults(related, named):
    """Yields what is wrong with how packages are related, and the packages that nothing leads to."""
    triples = [(it.get("spdxElementId"), it.get("relationshipType"), it.get("relatedSpdxElement")) for it in related]
    for one, kind, to in triples:
        if kind not in KINDS or not {one, to} <= named | {DOCUMENT}:
            yield f"relationship {one} {kind} {to}"
    if (DOCUMENT, "DESCRIBES", RELEASE) not in triples:
        yield "the document describes no release"
    yield from (f"{it}: nothing is related to it" for it in sorted(named - {end for it in triples for end in it}))


def faults(text):
    """Yields what is wrong with a document."""
    try:
        told = json.loads(text)
    except ValueError as fault:
        yield f"no JSON: {fault}"
        return
    yield from ill_formed("document", told, DOCUMENT_FIELDS)
    made = told.get("creationInfo", {})
    yield from ill_formed("creationInfo", made, {"created": MOMENT})
    creators = made.get("creators", [])
    if not creators or not all(re.match(r"(Tool|Organization|Person): \S", it) for it in creators):
        yield f"creationInfo: creators {creators}"
    every = told.get("packages", [])
    names = [it.get("SPDXID") for it in every]
    yield from (f"{it}: more than once" for it in sorted({str(it) for it in names if names.count(it) > 1}))
    yield from (fault for it in every for fault in package_faults(it))
    yield from relationship_faults(told.get("relationships", []), set(names))


def sum_of(path):
    with open(path, "rb") as it:
        return hashlib.sha256(it.read()).hexdigest()


def other_bytes(text, paths):
    """Yields the programs that a document has another sum of, and those that are given or named alone."""
    sums = {
        it.get("packageFileName"): one.get("checksumValue")
        for it in json.loads(text).get("packages", [])
        for one in it.get("checksums", [])
    }
    given = {os.path.basename(path): path for path in paths}
    yield from (f"{name} is named or given alone" for name in sorted(sums.keys() ^ given.keys()))
    both = sorted(sums.keys() & given.keys())
    yield from (f"{name} has other bytes" for name in both if sums[name] != sum_of(given[name]))


def self_test():
    crates = {"lra": "lra_cli", "lra_audit": "lra_audit"}
    assert not list(differences(crates.values())), list(differences(crates.values()))
    assert stands_on(["lra_words"]) == ["thiserror"] and not stands_on(["lra_model"])
    text = document("raxunto-1", "1", {it: sum_of(__file__) for it in crates}, crates, ("c0", 0))
    assert text == document("raxunto-1", "1", {it: sum_of(__file__) for it in crates}, crates, ("c0", 0))
    assert not list(faults(text)), list(faults(text))
    assert len(list(other_bytes(text, [__file__]))) == 3
    assert list(faults(text[1:]))
    good = json.loads(text)
    changes = (
        lambda it: it.pop("dataLicense"),
        lambda it: it.update(spdxVersion="SPDX-2.2"),
        lambda it: it.update(documentNamespace="a#b"),
        lambda it: it.pop("creationInfo"),
        lambda it: it["creationInfo"].update(created="now"),
        lambda it: it["creationInfo"].update(creators=["nobody"]),
        lambda it: it["packages"].append(it["packages"][0]),
        lambda it: it["packages"].pop(),
        lambda it: it["packages"][1].pop("downloadLocation"),
        lambda it: it["packages"][1].update(SPDXID="SPDXRef-a_b"),
        lambda it: it["packages"][1].update(licenseDeclared="MIT OR"),
        lambda it: it["packages"][1].update(licenseDeclared="Mine"),
        lambda it: it["packages"][1].update(filesAnalyzed=True),
        lambda it: it["packages"][2].pop("checksums"),
        lambda it: it["packages"][2]["checksums"][0].update(checksumValue="0"),
        lambda it: it["relationships"].pop(0),
        lambda it: it.update(relationships=it["relationships"][:9]),
        lambda it: it["relationships"][1].update(relationshipType="KNOWS"),
        lambda it: it["relationships"][1].update(relatedSpdxElement="SPDXRef-absent"),
    )
    for number, change in enumerate(changes):
        wrong = copy.deepcopy(good)
        change(wrong)
        assert list(faults(json.dumps(wrong))), f"change {number} is let pass"


def main(words):
    if words == ["--self-test"]:
        return self_test()
    if not words or words[0].startswith("-"):
        return __doc__
    with open(words[0], encoding="utf-8") as it:
        text = it.read()
    told = list(faults(text)) or (list(other_bytes(text, words[1:])) if words[1:] else [])
    return "\n".join(told) or None


if __name__ == "__main__":
    sys.exit(main(sys.argv[1:]))
