"""Writes crates/rules/proofs/Open.antt: one name whose `unfolding` line opens every definition of specs/, and one that leaves the costly ones closed.
Run from the repository's root."""
import re

BASE = "crates/rules/"
mods = [line.split()[-1] for line in open(BASE + "specs/Lib.antt") if line.startswith("pub mod")]
out = ["-- One name that opens every definition of specs/ which computes: `unfolding rules`. Written by tools/open.py."]
names, homes = [], {}
for mod in mods:
    text = open(BASE + f"specs/{mod}.antt").read()
    # a definition of the module's own, or one that it hands on from another crate
    own = [n for n in re.findall(r"^unfoldable pub (\S+) :", text, re.M)]
    handed = [n.strip() for group in re.findall(r"^unfoldable pub use \S+\.\{([^}]*)\}", text, re.M) for n in group.split(",")]
    uses = []
    for name in handed + own:
        if name in homes and homes[name] != mod:
            if name in handed:
                continue
            alias = mod.lower() + "_" + name
            uses.append(f"{name} as {alias}")
            names.append(alias)
        else:
            homes[name] = mod
            uses.append(name)
            names.append(name)
    if uses:
        out.append(f"use Rattle.rules.specs.{mod}." + "{" + ", ".join(uses) + "}")
# the costly ones: a proof that leaves them closed computes each once for a position, and rewrites by that
costly = ["proper", "masks_for"]
out += ["", "-- all of them but " + " and ".join(f"`{n}`" for n in costly) + ": a proof may then compute these once for a position, and rewrite by that"]
out += ["unfoldable pub rules_but : Unit {0}", "unfolding " + " ".join(n for n in names if n not in costly), "rules_but = tt"]
out += ["", "unfoldable pub rules : Unit {0}", "unfolding rules_but " + " ".join(costly), "rules = tt"]
open(BASE + "proofs/Open.antt", "w").write("\n".join(out) + "\n")
