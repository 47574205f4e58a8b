"""Puts crates of tests together into few: building one without proofs takes half a minute, whatever it holds.

A crate's files become a module of the joined crate, which has the crate's name without `upon_` and `_tests`; its paths, and
those of its definitions, are written anew. Proofs are left out.
"""
import os
import re


def short(name):
    """Returns the module's name of a crate of tests."""
    return name.removeprefix("upon_").removesuffix("_tests")


def spec(name, module):
    """Returns the name of a module of definitions in the joined crate."""
    return short(name).title().replace("_", "") + module


def moved(text, name, joined):
    """Returns the text of a file with its paths written anew."""
    text = re.sub(r"^#!\[.*\]\n", "", text, flags=re.M)
    text = re.sub(r"\bcrate::", f"crate::{short(name)}::", text)
    text = text.replace(f"Rattle.{name}.specs.declared.", f"Rattle.{joined}.specs.declared.{short(name)}.")
    return re.sub(rf"Rattle\.{name}\.specs\.(\w+)", lambda found: f"Rattle.{joined}.specs.{kept_or_moved(name, found[1])}", text)


def kept_or_moved(name, module):
    """Returns what a module of definitions is called: one that the prover writes keeps its name."""
    return module if module == "declared" else spec(name, module)


def copy(source, target, name, joined):
    """Copies a file, with its paths written anew."""
    os.makedirs(os.path.dirname(target), exist_ok=True)
    with open(source, encoding="utf-8") as file:
        text = moved(file.read(), name, joined)
    with open(target, "w", encoding="utf-8") as file:
        file.write(text)


def join(top, names, joined, deps):
    """Makes the crate `joined` of crates of tests, in the repository's copy at `top`."""
    crate, specs = os.path.join(top, "crates", joined), []
    for name in names:
        folder = os.path.join(top, "crates", name)
        for at, _, files in os.walk(os.path.join(folder, "src")):
            for file in files:
                inside = os.path.relpath(os.path.join(at, file), os.path.join(folder, "src"))
                place = f"{short(name)}.rt" if inside == "lib.rt" else f"{short(name)}/{inside}"
                copy(os.path.join(at, file), os.path.join(crate, "src", place), name, joined)
        for file in sorted(os.listdir(os.path.join(folder, "specs"))) if os.path.isdir(os.path.join(folder, "specs")) else []:
            if file.endswith(".antt") and file != "Lib.antt":
                specs.append(spec(name, file.removesuffix(".antt")))
                copy(os.path.join(folder, "specs", file), os.path.join(crate, "specs", f"{specs[-1]}.antt"), name, joined)
    os.makedirs(os.path.join(crate, "specs"), exist_ok=True)
    with open(os.path.join(crate, "specs", "Lib.antt"), "w", encoding="utf-8") as file:
        file.writelines(f"pub mod {it}\n" for it in specs)
    with open(os.path.join(crate, "src", "lib.rt"), "w", encoding="utf-8") as file:
        file.write("#![tactic(auto)]\n\n" + "".join(f"#[cfg(test)]\npub mod {short(name)};\n" for name in names))
    with open(os.path.join(top, "crates.txt"), "a", encoding="utf-8") as file:
        file.write(f"{joined}: {' '.join(deps)}\n")
