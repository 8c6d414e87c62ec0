"""What the commands compare and compare-codes share: building the model, and trying wrong copies of it."""
import argparse
import os
import pathlib
import shutil
import subprocess
import tempfile

MODEL = pathlib.Path(__file__).resolve().parent


class Failed(Exception):
    """Why there is nothing to compare."""


def built(folder, *options):
    """Builds the model in this folder, with these options of cargo; returns the folder with what was built."""
    command = ["cargo", "build", "--quiet", "--release", "--offline", *options]
    environment = os.environ | {"CARGO_TARGET_DIR": str(folder / "target")}
    if not shutil.which("cargo"):
        raise Failed("cargo is not found; it builds the model")
    if subprocess.run(command, cwd=folder, env=environment).returncode != 0:
        raise Failed(f"{' '.join(command)} failed in {folder}")
    return folder / "target" / "release"


def change(folder, name, rule):
    """Changes one rule of the copied model: the file, the right text and the wrong one."""
    file, right, wrong = rule
    text = (MODEL / "src" / file).read_text()
    if text.count(right) != 1:
        raise Failed(f"{name}: the text to change stands {text.count(right)} times in model/src/{file}")
    (folder / "src" / file).write_text(text.replace(right, wrong))


def restore(folder, rule):
    file = rule[0]
    shutil.copyfile(MODEL / "src" / file, folder / "src" / file)


def agrees(run, amount):
    """Whether a comparison with the unchanged copy, of this amount, found nothing."""
    ok = run.returncode == 0
    print(f"agrees: nothing changed, {amount}" if ok else f"DOES NOT AGREE: nothing changed\n{run.stdout}{run.stderr}", flush=True)
    return ok


def noticed(run, name, difference):
    """Whether a comparison with a wrong copy found a difference, and not only something that never occurred."""
    found = difference.search(run.stdout)
    ok = run.returncode == 1 and found is not None
    print(f"noticed: {name}, {found[1]}" if ok else f"NOT NOTICED: {name}\n{run.stdout}{run.stderr}", flush=True)
    return ok


def try_wrong(rules, with_right, with_wrong, amount, difference):
    """Compares with an unchanged copy of the model, and with a copy that has one of the wrong rules, for each.

    with_right and with_wrong compare with the model in a folder and return the finished process; amount says how much
    the first compares; the first group of the pattern difference is what is said of a difference. Prints the last
    line; returns how many failed.
    """
    with tempfile.TemporaryDirectory(prefix="compare-") as temporary:
        folder = pathlib.Path(temporary)
        shutil.copytree(MODEL / "src", folder / "src")
        for file in ("Cargo.toml", "Cargo.lock"):
            shutil.copy(MODEL / file, folder)
        results = [agrees(with_right(folder), amount)]
        for name, rule in rules.items():
            change(folder, name, rule)
            results.append(noticed(with_wrong(folder), name, difference))
            restore(folder, rule)
    print(f"{results.count(True)} passed, {results.count(False)} failed")
    return results.count(False)


def chosen(rules, name):
    """The rule of this name, or all."""
    return rules if name == "all" else {name: rules[name]}


def positive(text):
    number = int(text)
    if number < 1:
        raise argparse.ArgumentTypeError(f"{text} is not 1 or more")
    return number
