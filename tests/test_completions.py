"""The man page and the completions that `scripts/completions` writes, compared with the texts of help."""
import pathlib
import re
import subprocess
import sys
import tempfile

import program
from program import TOP, Case


def helped(*words):
    return subprocess.run([program.built, *words, "--help"], stdout=subprocess.PIPE, check=True, text=True).stdout


def commands_of(text):
    """The commands of the program, by its help."""
    return re.findall(r"(?m)^  (\w+)  ", text.partition("\nOptions:")[0])


def options_of(text):
    """The long options of a text of help."""
    return re.findall(r"(?m)^ +(?:-\w, )?(--[\w-]+)", text.partition("\nOptions:")[2].partition("\n\n")[0])


def offered(file, *words):
    """What bash offers after these words."""
    line = f'source "$1"; shift; COMP_WORDS=("$@"); COMP_CWORD=$(($# - 1)); _tempo; printf "%s\\n" "${{COMPREPLY[@]}}"'
    ran = subprocess.run(["bash", "-c", line, "bash", file, "tempo", *words], stdout=subprocess.PIPE, check=True, text=True)
    return {*ran.stdout.split()}


class Completions(Case):
    def test_commands_and_options_are_those_of_the_help(self):
        top = helped()
        commands = commands_of(top)
        self.assertIn("check", commands)
        with tempfile.TemporaryDirectory() as room:
            subprocess.run([sys.executable, TOP / "scripts/completions", program.built, room], check=True)
            share = pathlib.Path(room, "share")
            bash = share / "bash-completion/completions/tempo"
            man, zsh, fish = (
                (share / name).read_text().replace("\\-", "-")
                for name in ("man/man1/tempo.1", "zsh/site-functions/_tempo", "fish/vendor_completions.d/tempo.fish")
            )
            self.assertEqual({*commands, *options_of(top), "-h", "-V"}, offered(bash, ""))
            for name in commands:
                with self.subTest(name):
                    self.assertRegex(zsh, rf"(?m)^        '{name}:")
                    self.assertRegex(fish, rf"-a {name} ")
                    if name == "help":
                        continue
                    options = options_of(helped(name))
                    self.assertIn("--help", options)
                    self.assertEqual({*options, "-h"}, offered(bash, name, "-"))
                    self.assertRegex(man, rf"(?m)^\.SS tempo {name}$")
                    of_man = man.partition(f".SS tempo {name}\n")[2].partition("\n.SS")[0]
                    of_zsh = zsh.partition(f"\n    {name})\n")[2].partition(";;")[0]
                    for option in options:
                        self.assertRegex(of_man, rf"(?m)^\.B .*{option}\b")
                        self.assertIn(option, of_zsh)
                        self.assertRegex(fish, rf"seen_subcommand_from {name}' -l {option[2:]}\b")
