"""Writes the table of docs/GATE.md under `Where each edit is refused first`, from a gate's output. Run from the repository's root: `.ci/run >LOG; python3 tools/refusals.py LOG`."""
import re
import sys

PAPER = "docs/GATE.md"
HEAD = "## Where each edit is refused first\n"
LINE = re.compile(r"^rt: must-fail (\w+)/([\w.-]+)\.edit: refused, as it must be(?: \((only by a limit|only because)[^)]*\))?(?:: (.*))?$", re.M)
# what the gate says of a refusal that shows less of the contract
LESS = {"": "", "only by a limit": " (by a limit of the prover)", "only because": " (a proof names what the edit took away)"}

edits = LINE.findall(open(sys.argv[1]).read())


def place(text):
    at = re.match(r"(?:note: )?(?:\./)?(\S+?:\d+:\d+):", text)
    return at[1].removeprefix("proofs/").replace("/Proof.antt", "").replace("/Answers.antt", "").removeprefix("src/") if at else ""


rows = [f"| {crate}/{edit} | {place(text)}{LESS[less]} |" for crate, edit, less, text in edits]
table = "\n".join(["| edit | refused at |", "|---|---|", *rows])
text = open(PAPER).read()
start = text.index("\n| edit |", text.index(HEAD)) + 1
end = text.index("\n\n", start)
open(PAPER, "w").write(text[:start] + table + text[end:])
print(f"{len(edits)} edits; {sum(less != '' for _, _, less, _ in edits)} refusals that show less")
