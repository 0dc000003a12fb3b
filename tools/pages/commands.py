"""The commands: usage, options and help of each, as clap is given them, and what scripts may rely on beside that."""
import re

from pages.source import STRING, Missing, function, sources, unescaped, words

NAME = "commands.md"
HEAD = """\
# Commands of `ttd`

This page, made by `tools/reference`, lists the commands with their options and help, as `ttd COMMAND --help` and `man ttd` have them, and with what scripts may rely on \
beside that.

Options follow the command, in any order, each once; `..` marks what may be given again. A value is the next word, or follows `=`. \
Behind `--` no word is an option. [FORMATS.md](../FORMATS.md), section 3, has what holds for all commands, and [refusals](refusals.md) what each number means.

"""
CALL = re.compile(r"\b(\w+_command|with_rows)\(", re.DOTALL)
ROW = re.compile(rf"Row \{{\s*name: {STRING},\s*value: {STRING},\s*help: {STRING},\s*form: Form::(\w+)(?:\(OptionValue::(\w+)\))?,?\s*\}}")


class Commands:
    """What the crate ttd_words gives to clap."""

    def __init__(self):
        files = sources("ttd_words")
        self.commands = files["tree.rt"] + files["commands.rt"]
        self.options = files["options.rt"]
        self.helps = dict(re.findall(rf"const (ABOUT_\w+): &str = {STRING};", files["help.rt"] + files["service_help.rt"]))

    def body(self, text, name):
        """The body of a function, without its contract."""
        lines = function(text, name)
        return "\n".join(lines[lines.index("{"):])

    def calls(self, text):
        """The calls of a text that make commands and options, in the order in which they are used: name, strings, and all of the call."""
        return [call for _, call in sorted(self.placed(text), key=lambda pair: pair[0])]

    def placed(self, text):
        """Each of these calls, behind where it is used: where it stands, or where the variable does that holds it."""
        bare = re.sub(STRING, lambda found: '"' * len(found[0]), text)
        for found in CALL.finditer(text):
            end, depth = found.end(), 1
            while depth:
                letter = text[end]
                if letter == '"':
                    end += len(re.match(STRING, text[end:])[0]) - 1
                depth += (letter == "(") - (letter == ")")
                end += 1
            inner, bound = text[found.end():end], re.search(r"let (\w+) = $", text[:found.start()])
            use = re.search(rf"\b{bound[1]}\b", bare[end:]) if bound else None
            place = end + use.start() if use else end if found[1] == "with_rows" else found.start()
            yield place, (found[1], [unescaped(one) for one in re.findall(STRING, inner)], inner)

    def walk(self, name):
        """The commands and options that a function makes, in their order."""
        for call, strings, inner in self.calls(self.body(self.commands, name)):
            if call == "plain_command":
                yield "command", strings, self.helps[re.search(r"ABOUT_\w+", inner)[0]]
            elif call == "with_rows":
                for row in self.rows(re.search(r"&([A-Z]+)", inner)[1]):
                    yield "option", *row
            elif f"fn {call}<" in self.commands:
                yield from self.walk(call)

    def rows(self, name):
        """The options of a table: how each is written in a usage, and what its help says."""
        table = re.search(rf"^const {name}: \[Row; (\d+)\] = (.*?)^\}}?\];$", self.commands, re.MULTILINE | re.DOTALL)
        found = ROW.findall(table[0])
        if len(found) != int(table[1]):
            raise Missing(f"{name} has {len(found)} rows that are read")
        for option, value, words, form, takes in found:
            yield self.option(option, value, unescaped(words), form, takes)

    def option(self, name, value, words, form, takes):
        """How an option is written in a usage, and what its help says."""
        text = self.body(self.options, "option_of").partition(f"OptionValue::{takes} =>")[2].partition("OptionValue::")[0] if takes else ""
        default = re.search(rf"\.default_value\((?:{STRING}|(\w+)\(\))\)", text)
        if default:
            words += f" [default: {default[1] or re.search(STRING, self.body(self.options, default[2]))[1]}]"
        shown = value if form in ("Place", "Words") else f"--{name}" + (f" {value}" if value else "")
        shown += ".." if "ArgAction::Append" in text or form == "Words" else ""
        return shown if form == "Place" or ".required(true)" in text else f"[{shown}]", words


def page():
    """The text of the page."""
    commands, parts, notes = Commands(), [], words("commands")
    for kind, *rest in commands.walk("ttd_command"):
        if kind == "command":
            parts.append([rest[0], rest[1], []])
        else:
            parts[-1][2].append(rest)
    if strange := notes.keys() - {name for (name, _), _, _ in parts}:
        raise Missing(f"there is no command {strange.pop()}")
    text = HEAD + f"## All commands\n\n    ttd COMMAND ..\n    ttd help [COMMAND]\n    ttd --version\n\n```text\n{unescaped(commands.helps['ABOUT_ANSWERS'])}\n```\n"
    for (name, about), told, options in parts:
        usage = " ".join(["ttd", name, *(shown for shown, _ in options)])
        text += f"\n## `ttd {name}`\n\n{about}.\n\n    {usage}\n\n"
        text += "".join(f"- `{shown.strip('[]')}`: {meaning}\n" for shown, meaning in options) + ("\n" if options else "")
        text += f"```text\n{unescaped(told)}\n```\n"
        text += f"\n{notes[name].strip()}\n" if name in notes else ""
    return text
