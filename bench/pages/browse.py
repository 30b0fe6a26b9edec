#!/usr/bin/env python3
"""Looks over the pages that `sgt explain --html` writes of texts, and `sgt check --html` of histories: that they are
small and name nothing elsewhere, that no text of the explanation is markup, and what their script makes of it. With
Debian's `chromium` the page is loaded by it and its console is read; else the script is run by `node` over a small
stand-in for the page.

usage: browse.py PROGRAM TEXT ..        (the status is 1 if anything was found)
"""
import html
import json
import re
import shutil
import subprocess
import sys
import tempfile

MOST = 300_000

# A step of logs, or of a history.
STEP = re.compile(r"^  \d+ .+ before \d+ .+: site \d+, lines \d+ and \d+$|^\S.* (?:ww|wr|rw|po|rt) .+ lines \d+ \d+$", re.M)

STAND_IN = r"""
class E{constructor(t){this.tag=t;this.kids=[];this.dataset={};this.on=new Set();this.words='';this.calls={};
 this.classList={toggle:(c,on)=>{on?this.on.add(c):this.on.delete(c)}}}
 set textContent(v){this.words=String(v);this.kids=[]} get textContent(){return this.kids.length?this.kids.map(k=>k.textContent).join('\n'):this.words}
 append(...k){this.kids.push(...k)} replaceChildren(...k){this.kids=k}
 addEventListener(n,f){(this.calls[n]=this.calls[n]||[]).push(f)} fire(n){for(const f of this.calls[n]||[])f()}
 all(){return this.kids.flatMap(k=>[k,...k.all()])} querySelectorAll(q){return this.all().filter(e=>e.tag===q)}}
const given=JSON.parse(require('fs').readFileSync(0,'utf8')),ids={};
for(const i of ['text','table','find','said','beside'])ids[i]=new E(i);
ids.text.textContent=given.text;
global.document={getElementById:i=>ids[i],createElement:t=>new E(t),querySelectorAll:()=>Object.values(ids).flatMap(e=>e.all()).filter(e=>e.dataset.names)};
eval(given.script);
const rows=ids.table.querySelectorAll('tr'),steps=ids.text.kids.filter(s=>s.dataset.keys),marked=[];
for(const s of steps){s.fire('focus');marked.push(rows.filter(r=>r.on.has('on')).length);s.fire('blur')}
ids.find.value='4294967295';ids.find.fire('input');
console.log(JSON.stringify({rows:rows.length,steps:steps.length,marked,said:ids.said.textContent,left:rows.filter(r=>r.on.has('on')).length}));
"""


def parts(page):
    """The explanation as the page shows it, and the script."""
    text = re.search(r'<pre id="text">(.*?)</pre>', page, re.S).group(1)
    return text, re.search(r"<script>(.*)</script>\n</body>", page, re.S).group(1)


def by_node(page):
    """What is wrong with the table and the marks that the script makes."""
    text, script = parts(page)
    given = json.dumps({"text": html.unescape(text), "script": script})
    run = subprocess.run(["node", "-e", STAND_IN], input=given, capture_output=True, text=True, check=False)
    if run.returncode != 0:
        return [run.stderr.strip().splitlines()[-1]]
    told = json.loads(run.stdout)
    wanted = len(STEP.findall(html.unescape(text)))
    found = [] if told["steps"] == wanted else [f"{told['steps']} steps, {wanted} wanted"]
    found += [] if all(n == 2 for n in told["marked"]) else [f"a step marks {told['marked']} rows"]
    found += [] if "is not among" in told["said"] else ["a transaction that isn't shown is found"]
    return found + ([] if told["left"] == 0 else ["marks are left"])


def by_chromium(page):
    """What the console says."""
    with tempfile.NamedTemporaryFile("w", suffix=".html", encoding="utf-8") as file:
        file.write(page)
        file.flush()
        words = ["chromium", "--headless", "--no-sandbox", "--enable-logging=stderr", "--dump-dom", f"file://{file.name}"]
        run = subprocess.run(words, capture_output=True, text=True, check=False, timeout=120)
    return [line for line in run.stderr.splitlines() if "CONSOLE" in line]


def found_in(page):
    text, _ = parts(page)
    found = [] if len(page.encode()) <= MOST else [f"{len(page.encode())} bytes"]
    found += [f"names {place}" for place in re.findall(r'(?:src|href|action)="[^"#]*"|url\([^)]*\)', page)]
    found += ["markup in the explanation"] if re.search(r"[<>\"']", text) else []
    found += by_node(page) if shutil.which("node") else []
    return found + (by_chromium(page) if shutil.which("chromium") else [])


def main():
    program, *texts = sys.argv[1:]
    count = 0
    for name in texts:
        with open(name, "rb") as file:
            command = "check" if file.read(1) == b"{" else "explain"
        run = subprocess.run([program, command, "--html", name], capture_output=True, text=True, check=False)
        for it in found_in(run.stdout):
            print(f"{name}: {it}")
            count += 1
    print(f"{len(texts)} pages, {count} found")
    sys.exit(1 if count else 0)


if __name__ == "__main__":
    main()
