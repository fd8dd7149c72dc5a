"""play.html of its parts: the sources in web/play, the editor, the programs, examples, rules."""

import base64
import glob
import gzip
import html
import json
import os
import re
from typing import Dict, List, Optional

EDITOR = "/usr/share/javascript/codemirror"
LICENCES = ("/usr/share/doc/libjs-codemirror/copyright", "/usr/share/doc/wasi-libc/copyright")
PROGRAMS = ("mmnames", "mmsim", "mmshow")
# Which part of the rules tells of a line that no paragraph of its own is about.
ELSEWHERE = {
    "machine": "## 1.",
    "read": "## 8.",
    "write": "## 8.",
    "exec": "## 8.",
    "begin": "## 8.",
    "resume": "## 8.",
}


class Stopped(Exception):
    """Why no page is made, in a sentence."""


def read(path: str) -> str:
    with open(path, encoding="utf-8") as file:
        return file.read()


# ---- Markdown, as far as the documents use it


def inline(text: str) -> str:
    """A paragraph's marks: code, strong, emphasis; a link is its text."""
    pieces = re.split(r"(`[^`]*`)", text)
    for at, piece in enumerate(pieces):
        if at % 2:
            pieces[at] = f"<code>{html.escape(piece[1:-1])}</code>"
            continue
        piece = re.sub(r"\[([^\]]*)\]\([^)]*\)", r"\1", html.escape(piece, quote=False))
        piece = re.sub(r"\*\*([^*]+)\*\*", r"<b>\1</b>", piece)
        pieces[at] = re.sub(r"\*([^*]+)\*", r"<i>\1</i>", piece)
    return "".join(pieces)


def block(text: str) -> str:
    """A paragraph, list, table or heading."""
    lines = text.split("\n")
    heading = re.match(r"(#+) (.*)", lines[0])
    if heading:
        level = min(len(heading[1]) + 1, 5)
        return f"<h{level}>{inline(heading[2])}</h{level}>"
    if lines[0].startswith("|"):
        return table(lines)
    for mark, name in ((r"- ", "ul"), (r"\d+\. ", "ol")):
        if re.match(mark, lines[0]):
            items = re.split(rf"^{mark}", text, flags=re.M)[1:]
            shown = [f"<li>{inline(' '.join(it.split()))}</li>" for it in items]
            return f"<{name}>{''.join(shown)}</{name}>"
    return f"<p>{inline(' '.join(line.strip() for line in lines))}</p>"


def table(lines: List[str]) -> str:
    rows = []
    for at, line in enumerate(lines):
        if at == 1:
            continue
        cells = re.split(r"(?<!\\)\|", line.strip())[1:-1]
        name = "td" if at else "th"
        plain = [inline(it.strip().replace("\\|", "|")) for it in cells]
        rows.append("<tr>" + "".join(f"<{name}>{it}</{name}>" for it in plain) + "</tr>")
    return f"<table>{''.join(rows)}</table>"


def blocks(text: str) -> List[str]:
    """The text's blocks, without what is fenced."""
    text = re.sub(r"^```.*?^```$", "", text, flags=re.M | re.S)
    return [it.strip("\n") for it in re.split(r"\n\s*\n", text) if it.strip()]


def rendered(parts: List[str]) -> str:
    return "".join(block(part) for part in parts)


# ---- the rules


def forms(rules: str) -> Dict[str, List[str]]:
    """Each keyword's arguments, of the table of forms: `alloc <pid> <addr>` is alloc: pid, addr."""
    found: Dict[str, List[str]] = {}
    rows = "\n".join(chapter(blocks(rules), "## 4. ")).replace("\\|", "\1")
    for row in re.findall(r"^\| (`[a-z]+.*?) \|", rows, re.M):
        for form in re.findall(r"`([^`]*)`", row):
            keyword, *_ = form.split(" ")
            words = re.findall(r"<([^>]*)>|(\S+)", form[len(keyword) :])
            names = [(field or word).replace("\1", " or ") for field, word in words]
            found.setdefault(keyword, names)
    if len(found) < 30 or found.get("alloc") != ["pid", "addr", "size", "type", "prot"]:
        raise Stopped("the table of forms in docs/PROFILE.md cannot be read: it has another form")
    return found


def texts(rules: str, keywords: List[str]) -> Dict[str, str]:
    """What the rules say of each keyword: the paragraphs that it begins, up to the next such."""
    parts = blocks(rules)
    starts = {}
    for at, part in enumerate(parts):
        head = re.match(r"(?:- )?(\*\*`.*?)(?:$|\n|\. )", part)
        if not head or re.match(r"\|", part):
            continue
        names = re.findall(r"\*\*`([a-z]+)", part.split("(own)")[0].split("\n")[0])
        for name in names:
            starts.setdefault(name, at)
    found = {}
    for keyword in keywords:
        if keyword in starts:
            end = starts[keyword] + 1
            while end < len(parts) and not re.match(r"#|(?:- )?\*\*", parts[end]):
                end += 1
            found[keyword] = rendered(parts[starts[keyword] : end])
        elif keyword in ELSEWHERE:
            found[keyword] = rendered(chapter(parts, ELSEWHERE[keyword]))
        else:
            found[keyword] = rendered(sentences(parts, keyword))
    return found


def chapter(parts: List[str], heading: str) -> List[str]:
    """The blocks below a heading."""
    at = next((i for i, part in enumerate(parts) if part.startswith(heading)), None)
    if at is None:
        raise Stopped(f"docs/PROFILE.md has no chapter {heading!r}")
    end = at + 1
    while end < len(parts) and not parts[end].startswith("## "):
        end += 1
    return parts[at + 1 : end]


def sentences(parts: List[str], keyword: str) -> List[str]:
    """The blocks, or the items of lists, that have the keyword as a strong word."""
    marks = (f"**`{keyword}", f"**{keyword.capitalize()}.**")
    for part in parts:
        for item in re.split(r"\n(?=- )", part):
            if any(mark in item for mark in marks):
                return [re.sub(r"^- ", "", item)]
    return []


# ---- the examples


def menu(listed: str, folder: str) -> List[Dict[str, str]]:
    """The examples, with groups, what they show, a text; those that are not listed stand last."""
    found: List[Dict[str, str]] = []
    group = ""
    for line in listed.splitlines():
        if line.startswith("= "):
            group = line[2:]
        elif line.startswith("  ") and found:
            found[-1]["lesson"] = block(line.strip())
        elif line and not line.startswith("#"):
            name, _, title = line.partition(": ")
            found.append({"group": group, "name": name, "title": title})
    found = [it for it in found if script_file(folder, it["name"])]
    names = {it["name"] for it in found}
    paths = glob.glob(f"{folder}/*.mm") + glob.glob(f"{folder}/*.txt")
    rest = sorted({os.path.splitext(os.path.basename(path))[0] for path in paths} - names)
    return found + [{"group": "More", "name": name, "title": name} for name in rest]


def script_file(folder: str, name: str) -> Optional[str]:
    for path in (f"{folder}/{name}.mm", f"{folder}/{name}.txt"):
        if os.path.isfile(path):
            return path
    return None


def lesson(guide: str, name: str) -> str:
    """What the guide says of an example: its chapter's text, or the paragraph that names it."""
    for text in re.split(r"^(?=#{1,3} )", guide, flags=re.M):
        if f"`examples/{name}." not in text:
            continue
        parts = blocks(text)
        at = next(i for i, part in enumerate(parts) if f"`examples/{name}." in part)
        end = at + 1
        while end < len(parts) and "`examples/" not in parts[end]:
            end += 1
        told = parts[at:end]
        if len(told) > 1 and (told[0].startswith("*") or len(told[0]) < 200):
            told = told[1:]
        return folded([it for it in told if not it.startswith("#")][:6])
    return ""


def folded(told: List[str]) -> str:
    """The blocks; those behind a question, which begins `Before you look`, are behind a fold."""
    ask = next((at for at, part in enumerate(told) if "Before you look" in part), len(told))
    after = rendered(told[ask + 1 :])
    fold = f"<details><summary>What happens</summary>{after}</details>" if after else ""
    return rendered(told[: ask + 1]) + fold


def examples(top: str) -> List[Dict[str, str]]:
    guide = "\n".join(read(path) for path in sorted(glob.glob(f"{top}/docs/guide/*.md")))
    found = menu(read(f"{top}/web/play/examples.txt"), f"{top}/examples")
    for it in found:
        it["script"] = read(script_file(f"{top}/examples", it["name"]) or "")
        it.setdefault("lesson", lesson(guide, it["name"]))
    return found


# ---- the page


def packed(path: str) -> str:
    with open(path, "rb") as file:
        return base64.b64encode(gzip.compress(file.read(), 9, mtime=0)).decode()


def licence() -> str:
    """The copyright notes of what the page has from Debian, as far as they are installed."""
    return "\n\n".join(read(path).strip() for path in LICENCES if os.path.isfile(path))


def included(template: str, folder: str) -> str:
    """The template, in which `@include FILE ..` stands for those files."""
    lines = []
    for line in template.splitlines(True):
        word, *names = line.split() or [""]
        if word != "@include":
            lines.append(line)
            continue
        for name in names:
            inside, found = name.split("codemirror/")[-1], name.startswith("codemirror/")
            path = f"{EDITOR}/{inside}" if found else f"{folder}/{name}"
            if not os.path.isfile(path):
                raise Stopped(f"{path} is missing" + ": apt-get install libjs-codemirror" * found)
            text = read(path).rstrip("\n") + "\n"
            lines.append(text.replace("</script", "<\\/script") if name.endswith(".js") else text)
    return "".join(lines)


def page(top: str, programs: Dict[str, Dict[str, object]], built: Dict[str, object]) -> str:
    """The whole page. `programs` has the WebAssembly modules, `built` what they were made of."""
    rules = read(f"{top}/docs/PROFILE.md")
    known = forms(rules)
    data = {
        "modules": {name: packed(str(programs[name]["path"])) for name in PROGRAMS},
        "examples": examples(top),
        "help": {"forms": known, "texts": texts(rules, list(known))},
        "built": {**built, "rules": rendered(blocks(rules)[1:]), "licence": licence()},
    }
    spelled = json.dumps(data, ensure_ascii=False).replace("</", "<\\/")
    folder = f"{top}/web/play"
    return included(read(f"{folder}/page.html"), folder).replace("@DATA@", spelled)
