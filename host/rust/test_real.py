#!/usr/bin/env python3
"""test_real.py FILE..: the warnings of `nuvaleta texts` over real modules. As they are there is none. With a word before their imports that ends the scan, or
a comment behind each `import` and `include`, there is one for each import and include that the scan read before."""
import json
import os
import re
import subprocess
import sys

sys.dont_write_bytecode = True
HERE = os.path.dirname(os.path.abspath(__file__))
COMMAND = os.path.join(HERE, "build", "release", "nuvaleta")
sys.path.insert(0, os.path.join(HERE, "..", "pack"))
import form  # noqa: E402

HEAD = re.compile(rb"^\s*(?:sub)?module\s+\S+\s*\{", re.M)
KEYWORD = re.compile(rb"^(\s*)(import|include)\s", re.M)
SNAGS = {
    "contact": b" x:ext contact; ",
    "description": b' x:ext { description "d"; } ',
    "reference": b" x:ext urn:x/reference; ",
}


def told(texts):
    """What the command says of each text."""
    bundle = form.write_bundle([(f"t{i}", text) for i, text in enumerate(texts)])
    ran = subprocess.run([COMMAND, "texts", "--json", "-"], input=bundle, capture_output=True, check=True)
    return json.loads(ran.stdout)["texts"]


def passed(about, cause):
    """The names that are told as passed over for this cause; whatever else is told of this kind is a fault."""
    words = [one["words"] for one in about["warnings"] if one["kind"] == "passed_over"]
    hits = [re.fullmatch(r'(?:import|include) "(.*)" is passed over: (.*)', one) for one in words]
    assert all(hit and cause in hit[2] for hit in hits), words
    return sorted(hit[1] for hit in hits)


def main():
    texts = []
    for path in sys.argv[1:]:
        with open(path, "rb") as file:
            texts.append(file.read())
    plain = told(texts)
    alarms = [(sys.argv[1 + i], one) for i, about in enumerate(plain) for one in about["warnings"]]
    assert not alarms, alarms
    due = [sorted({one["name"] for one in about["dependencies"].get("imports", []) + about["dependencies"].get("includes", [])}) for about in plain]
    count = sum(map(len, due))
    assert count > len(texts), (count, len(texts))
    for word, snag in SNAGS.items():
        changed = told([HEAD.sub(lambda hit, snag=snag: hit[0] + snag, text, count=1) for text in texts])
        assert [passed(about, f"the scan ends at the word {word} in line ") for about in changed] == due
    changed = told([KEYWORD.sub(rb"\1\2/**/ ", text) for text in texts])
    assert [passed(about, "a comment stands right behind the word ") for about in changed] == due
    print(f"rust: texts, no false alarm over {len(texts)} real modules; each of their {count} imports and includes is warned of where it is passed over")


if __name__ == "__main__":
    main()
