"""Makes weaker laws, for tests/edits. Some wrong bodies of `uses` call a weaker law in place of the
library's. They must be refused: otherwise no caller would need the law for all rules.

The laws of `crate::by_own_table` hold only for rules with the library's own table of units, and
those of `crate::by_second` only if the default unit is the second, too. Each clause of a law that
begins with its rules or its default unit is weakened. `never_more` stays: it speaks of a default
unit only in the record `IsMostWithin`.
"""
import re

# The files of laws, each with its crate
FILES = (
    ("duration_str_reading", "ReadingLaws"),
    ("duration_str_printing", "PrintingLaws"),
    ("duration_str_laws", "Laws"),
)

# For each module: what is assumed of the rules `r`, and of the default unit.
FEWER = {
    "by_own_table": ("r ≡ rules_with (r.options) (r.default_unit)", "⊤"),
    "by_second": ("r ≡ rules_of (r.options)", "default_unit ≡ Some Second"),
}


def weaken(crates):
    """Adds these modules to `uses` in a copy of the crates."""
    laws = (crates / "duration_str_laws/src/laws.rt").read_text("utf-8")
    # The laws whose definitions are in other files than these stay.
    others = "".join(re.findall(r"^ghost use (?!.*\.\w*Laws\.).*\n", laws, re.M))
    laws = re.findall(r"^pub fn (\w+)\(\)\n(.*?)^\{\}", laws, re.M | re.S)
    imports, definitions = {}, []
    for crate, file in FILES:
        head, *items = (crates / f"{crate}/specs/{file}.antt").read_text("utf-8").split("\n\n")
        for path, names in re.findall(r"^use ([\w.]+)\.\{(.*)\}$", head, re.M):
            imports.setdefault(path, {}).update(dict.fromkeys(names.split(", ")))
        definitions += [(f"{crate}.specs.{file}", item) for item in items]
    units = "Rattle.duration_str_base.specs.declared.unit.TimeUnit.TheVariants"
    imports.setdefault(units, {})["Second"] = None
    rules = imports.setdefault("Rattle.duration_str_base.specs.Rules", {})
    rules |= dict.fromkeys(("rules_of", "rules_with"))
    imports.setdefault("Rattle.std.specs.Prelude", {}).update(dict.fromkeys(("⊤", "Some", "◌≡◌")))
    for module, (of_rules, of_unit) in FEWER.items():
        unchanged, weaker = {}, {}
        for file, definition in definitions:
            name = re.search(r"^(?:pub record|abbrev pub) (\w+)", definition, re.M)[1]
            text = definition.replace("(r : Rules)", f"(r : Rules) (fewer : {of_rules})")
            unit = "(default_unit : Option TimeUnit)"
            text = re.sub(rf"(?<!\) ){re.escape(unit)}", f"{unit} (fewer : {of_unit})", text)
            if text == definition or name == "IsMostWithin":
                unchanged.setdefault(file, []).append(name)
            else:
                weaker[name] = text
        # (a weaker law that another file cites is here)
        cited = {
            path: [name for name in names if name not in weaker] for path, names in imports.items()
        }
        uses = [f"use {path}.{{{', '.join(names)}}}" for path, names in cited.items() if names]
        same = [f"use Rattle.{file}.{{{', '.join(names)}}}" for file, names in unchanged.items()]
        own = [use for use in uses if not use.split(".{")[0].endswith("Laws")]
        text = "\n\n".join(["\n".join([*own, *same]), *weaker.values()])
        (crates / f"uses/specs/{module}.antt").write_text(text, "utf-8")
        code = (
            others
            + "".join(f"ghost {use};\n" for use in same)
            + f"ghost use Rattle.uses.specs.{module}.{{{', '.join(weaker)}}};\n"
        )
        for law, contract in laws:
            code += f"pub fn {law}()\n{contract}{{\n    duration_str::laws::{law}();\n}}\n"
            proof = crates / f"uses/proofs/{module}/{law}"
            proof.mkdir(parents=True)
            (proof / "Answers.antt").write_text(proof_of(module, law, contract, weaker), "utf-8")
        (crates / f"uses/src/{module}.rt").write_text(code, "utf-8")
        for file, end in ("specs/Lib.antt", ""), ("src/lib.rt", ";"):
            with (crates / "uses" / file).open("a", encoding="utf-8") as lib:
                lib.write(f"pub mod {module}{end}\n")


def weaker(uses):
    """Returns the names of the weaker laws in this folder of `uses`."""
    code = {module: (uses / f"src/{module}.rt").read_text("utf-8") for module in FEWER}
    return [f"{it}::{law}" for it in code for law in re.findall(r"^pub fn (\w+)", code[it], re.M)]


def proof_of(module, law, contract, weaker):
    """The proof of a weaker law: each of its clauses follows from the same clause of the law."""
    proof = f"use Rattle.uses.proofs.{module}.{law}.Goals as goal\n"
    for label, name in re.findall(r"ensures (\w*) ?\{ (\w+) \}", contract):
        goal = f"returns-clause-{label}" if label else "returns"
        whole = f"c.{law}.ensures.{label}".rstrip(".")
        fields = re.findall(r"^  pub (\w+) : \(\w+ : .*?\)( \(fewer)?", weaker.get(name, ""), re.M)
        clauses = [
            f"{field} = λ r fewer. {whole}.{field} r" if is_weaker else f"{field} = {whole}.{field}"
            for field, is_weaker in fields
        ]
        answer = f"λ r fewer. {whole} r" if name in weaker else whole
        answer = f"record {{ {'; '.join(clauses)} }}" if clauses else answer
        proof += f"\npub {goal} : goal.{goal}\n{goal} c = {answer}\n"
    return proof
