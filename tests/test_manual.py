"""The manual page and the completions of shells: each command and each option that `--help` tells stands in each of them,
and no other. The page's example is run, and the completion for bash is asked as bash asks it."""

import os
import re
import subprocess
import tempfile
import unittest

import program
import serving

QUESTIONS = {"help", "version"}


def text_of(*path):
    with open(os.path.join(program.TOP, *path)) as file:
        return file.read()


def told():
    """By command the options that its help tells."""
    status, out, _ = program.run(["--help"])
    section = out.decode().split("\nCommands:\n")[1].split("\n\n")[0]
    commands = re.findall(r"^  (\w+)(?: |$)", section, re.M)
    return {command: set(re.findall(r"^ +(?:-\w, )?--(\w+)", program.run([command, "--help"])[1].decode(), re.M)) for command in commands}


class Page(unittest.TestCase):
    def setUp(self):
        self.page = text_of("docs", "sn.1")

    def test_commands_and_options(self):
        section = self.page.split("\n.SH COMMANDS\n")[1].split("\n.SH ")[0]
        commands = re.split(r"^\.SS (\w+)$", section, flags=re.M)[1:]
        found = {name: set(re.findall(r"^\.BI \\-\\-(\w+) ", part, re.M)) | {"help"} for name, part in zip(commands[::2], commands[1::2])}
        self.assertEqual(found, told())
        named = set(re.findall(r"\\-\\-(\w+)", self.page)) - {"name"}
        self.assertEqual(named, set().union(*told().values()) | QUESTIONS)

    def test_no_option_is_spelled_as_groff_would_bend_it(self):
        self.assertNotIn("--", re.sub(r'^\.\\".*$', "", self.page, flags=re.M))

    def test_statuses(self):
        """As in the table of the formats."""
        section = self.page.split("\n.SH EXIT STATUS\n")[1].split("\n.SH ")[0]
        statuses = re.findall(r"^\.TP\n\.B (\d+)$", section, re.M)
        table = text_of("docs", "FORMATS.md").split("\n## Statuses\n")[1]
        self.assertEqual(statuses, re.findall(r"^\| (\d+) \|", table, re.M))
        self.assertEqual(statuses, ["0", *map(str, range(2, 12))])

    def test_the_version(self):
        self.assertIn('"%s"' % program.run(["--version"])[1].decode().strip(), self.page)

    def test_the_example(self):
        lines = self.page.split("\n.EX\n")[1].split("\n.EE\n")[0].replace("\\-", "-")
        with tempfile.TemporaryDirectory() as folder, serving.Served(os.path.join(folder, "server")) as server:
            os.symlink(os.path.realpath(program.SN), os.path.join(folder, "sn"))
            with open(os.path.join(folder, "password"), "w") as file:
                file.write("one password\n")
            environment = {**os.environ, "PATH": folder + ":" + os.environ["PATH"]}
            lines = "set -e\n" + lines.replace("8003", str(server.port))
            done = subprocess.run(["bash", "-c", lines], cwd=folder, env=environment, capture_output=True, text=True)
        self.assertEqual((done.returncode, done.stderr), (0, ""))
        self.assertRegex(done.stdout, r"\Aok\n[0-9a-f-]{36}\nok\n\Z")


class Completions(unittest.TestCase):
    def asked(self, *words):
        """What bash offers for the last of these words."""
        script = 'source "$0"; COMP_WORDS=("$@"); COMP_CWORD=$(($# - 1)); _sn; printf "%s\\n" "${COMPREPLY[@]}"'
        file = os.path.join(os.path.realpath(program.TOP), "completions", "sn.bash")
        done = subprocess.run(["bash", "-c", script, file, *words], cwd=self.folder, capture_output=True, text=True)
        self.assertEqual((done.returncode, done.stderr), (0, ""))
        return [line for line in done.stdout.split("\n") if line]

    def setUp(self):
        scratch = tempfile.TemporaryDirectory()
        self.addCleanup(scratch.cleanup)
        self.folder = scratch.name

    def test_of_bash(self):
        self.assertEqual(sorted(self.asked("sn", "")), sorted([*told(), "--help", "--version"]))
        for command, options in told().items():
            self.assertEqual({"--" + option for option in options}, set(self.asked("sn", command, "")), command)
        self.assertEqual(self.asked("sn", "frob", ""), [])

    def test_of_bash_with_values(self):
        for name in ("a note", "another"):
            open(os.path.join(self.folder, name), "w").close()
        self.assertEqual(self.asked("sn", "re"), ["replay", "register"])
        self.assertEqual(sorted(self.asked("sn", "put", "--store", "a")), ["a note", "another"])
        self.assertEqual(sorted(self.asked("sn", "put", "--store", "=", "an")), ["another"])
        self.assertEqual(self.asked("sn", "put", "--title", ""), [])
        self.assertEqual(self.asked("sn", "put", "--store", "another", "--"), ["--title", "--help"])

    def test_of_fish(self):
        text = text_of("completions", "sn.fish")
        first = r"^complete -c sn -n __fish_use_subcommand "
        commands = re.findall(first + r"-a (\w+) ", text, re.M)
        self.assertEqual(set(re.findall(first + r".*-l (\w+)", text, re.M)), QUESTIONS)
        found = {command: set() for command in commands}
        for those, option in re.findall(r"^complete -c sn -n '__fish_seen_subcommand_from ([\w ]+)' .*-l (\w+) ", text, re.M):
            for command in those.split():
                found[command].add(option)
        self.assertEqual((sorted(commands), found), (sorted(told()), told()))
        self.assertEqual(len(re.findall("^complete ", text, re.M)), len(re.findall(r"^complete -c sn (?:-f$|-n .* -d '[^']+'$)", text, re.M)))

    def test_of_zsh(self):
        text = text_of("completions", "_sn")
        self.assertTrue(text.startswith("#compdef sn\n"))
        (section,) = re.findall(r"^commands=\(\n(.*?)^\)$", text, re.M | re.S)
        commands = re.findall(r"^    '(\w+):[^']+'$", section, re.M)
        named = {name: set(re.findall(r"--(\w+)", words)) for name, words in re.findall(r"^(\w+)=\((.*)\)$", text, re.M)}
        found = {}
        for those, words in re.findall(r"^    ([\w |]+)\) _arguments (.*) ;;$", text, re.M):
            options = set(re.findall(r"'--(\w+)=", words)).union(*(named[name] for name in re.findall(r"\$(\w+)", words)))
            found.update({command: options for command in those.split(" | ")})
        self.assertEqual((sorted(commands), found), (sorted(told()), told()))
        self.assertIn("{-V,--version}", text)


if __name__ == "__main__":
    unittest.main()
