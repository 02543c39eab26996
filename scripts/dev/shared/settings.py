"""The table of settings, as policy_rules has it, and what bridge_command_line says of each to users."""
import collections
import re

from prelude import TOP

# `usual` is the text of the usual value, `default` that of `wineravine`; `least` and `most` are
# those of a number; `value` and `help` are what --help says.
Setting = collections.namedtuple("Setting", "name is_truth usual least most default value help")

ROW = re.compile(r'Setting::\w+ => (truth|number)\("(\w+)", "(\w+)"(?:, (\w+), (\w+))?\)')
CONSTANT = re.compile(r"const (\w+): u32 = ([\d_]+);")
OPTION = re.compile(r'(?:let help =\s*"([^"]*)";\s*)?(flag_option|option)\(\s*alloc,\s*"(\w+)",\s*'
                    r'"(\w+)",\s*(?:"([^"]*)")?,?\s*(?:"([^"]*)"|help)')


def code(name):
    return (TOP / "crates" / name).read_text()


def said_to_users():
    """The default, the name of the value and the help of each setting, as `wineravine` has them."""
    found = {}
    for file in ("arguments", "wineravine_arguments"):
        for above, kind, name, usual, one, other in OPTION.findall(
                code(f"bridge_command_line/src/{file}.rt")):
            texts = [it for it in (one, other or above) if it]
            value = "true|false" if kind == "flag_option" else texts[0]
            found[name] = usual, value, texts[-1]
    return found


def read():
    """The settings, in the order in which a header states them."""
    numbers = {name: number.replace("_", "")
               for name, number in CONSTANT.findall(code("policy_rules/src/setting_rules/settings.rt"))}
    words = said_to_users()
    return [Setting(name, kind == "truth", usual, numbers.get(least, least),
                    numbers.get(most, most), *words.get(name, (usual, "", "")))
            for kind, name, usual, least, most in ROW.findall(code("policy_rules/src/setting_rules/table.rt"))]


def stated_by_versions():
    """The settings that each header states, of each version from the second on."""
    numbers = re.findall(r"const \w+_SETTINGS: usize = (\d+);", code("policy_rules/src/setting_rules/table.rt"))
    return [read()[:number] for number in sorted(map(int, numbers))]


def stated_by_all():
    """The settings that every header states: those that `bridge` has."""
    return stated_by_versions()[0]
