"""The words of the program's commands: which of them name files, and what is wrong where they fit no command."""
import difflib
import re
import sys

MOST_STEPS, MOST_CONCEPTS, MOST_CLASSES, MOST_ROWS = 1000000000, 16384, 100, 4294967295
FORMS = {
    "run": "run FILE STEPS WORD..",
    "table": "table FILE",
    "lattice": "lattice [-j] [-c N] FILE",
    "base": "base FILE",
    "why": "why FILE ROW COLUMN",
    "sure": "sure FILE",
    "same": "same FILE FILE",
    "edit": "edit [-c N] FILE SCRIPT",
    "regen": "regen [-c N] FILE SCRIPT",
    "make": "make [-p] NUMBER",
    "--help": "--help",
    "--version": "--version",
}
FILES = {"run": 1, "table": 1, "lattice": 1, "base": 1, "why": 1, "sure": 1, "same": 2, "edit": 2, "regen": 2}
WORDS_BEHIND = {"run": 1, "make": 1, "why": 2}
MEANT = {"-h": "--help", "-help": "--help", "help": "--help", "-v": "--version", "-V": "--version"}
MEANT |= {"version": "--version", "implications": "base", "write": "regen", "split": "edit", "analyse": "lattice", "analyze": "lattice"}
MEANT |= {"explain": "why", "diff": "same", "equal": "same", "dead": "sure", "safe": "sure"}


def is_number(word, least, most):
    return re.fullmatch("0|[1-9][0-9]*", word) is not None and least <= int(word) <= most


def behind_flags(words):
    """The place of the first word behind the command and its flags."""
    at = 1
    if words[:1] == ["lattice"] and words[at : at + 1] == ["-j"]:
        at += 1
    if words[0] in ("lattice", "edit", "regen") and words[at : at + 1] == ["-c"]:
        at += 2
    if words[:1] == ["make"] and words[at : at + 1] == ["-p"]:
        at += 1
    return at


def files_among(words):
    """The places of the words that name files, for words that fit a command."""
    if not words or words[0] not in FILES:
        return []
    first = behind_flags(words)
    return [at for at in range(first, first + FILES[words[0]]) if at < len(words)]


def wrong_command(word):
    meant = MEANT.get(word) or next(iter(difflib.get_close_matches(word, FORMS, 1)), None)
    hint = f" (`{meant}` is)" if meant else ""
    return f"`{word}` is no command{hint}; the commands are {', '.join(FORMS.values())}"


def wrong_count(words, at):
    """What is wrong with how many words stand behind a command and its flags."""
    command, rest = words[0], words[at:]
    if command in ("--help", "--version"):
        return f"nothing stands behind {command}" if rest else None
    wanted = FILES.get(command, 0) + WORDS_BEHIND.get(command, 0)
    names = FORMS[command].split("] ")[-1].split()[-wanted:] if command != "run" else ["FILE", "STEPS"]
    names = [name for name in names if name != command]
    if len(rest) < wanted:
        return f"{' and '.join(names[len(rest):])} {'is' if wanted - len(rest) == 1 else 'are'} missing"
    if len(rest) > wanted and command != "run":
        flag = next((word for word in rest if word in ("-c", "-j", "-p")), None)
        if flag and flag in FORMS[command]:
            return f"`{flag}` stands before the file" + (", and -j before -c" if flag == "-j" else "")
        return f"there are too many words, from `{rest[wanted]}` on"
    return None


def what_is_wrong(words):
    """Why the words fit no command, or nothing where they fit one."""
    if not words:
        return f"a command is missing; the commands are {', '.join(FORMS.values())}"
    command = words[0]
    if command not in FORMS:
        return wrong_command(command)
    at, why = behind_flags(words), None
    if "-c" in words[1:at] and not (at <= len(words) and is_number(words[at - 1], 1, MOST_CONCEPTS)):
        given = f", and `{words[at - 1]}` is none" if at <= len(words) else ""
        why = f"-c takes a number from 1 to {MOST_CONCEPTS}{given}"
    why = why or wrong_count(words, at)
    if not why and command == "run" and not is_number(words[2], 0, MOST_STEPS):
        why = f"STEPS is a number from 0 to {MOST_STEPS} in digits alone, and `{words[2]}` is none"
    if not why and command == "make" and not is_number(words[at], 1, MOST_CLASSES):
        why = f"NUMBER is a number from 1 to {MOST_CLASSES}, and `{words[at]}` is none"
    if not why and command == "why":
        for name, letter, word in zip(("ROW", "COLUMN"), "rc", words[2:4]):
            if not (word[:1] == letter and is_number(word[1:], 0, MOST_ROWS)):
                why = why or f"{name} is `{letter}` and a number, as the table has them, and `{word}` is none"
    return why and f"{why}: {FORMS[command]}"


def main():
    why = what_is_wrong(sys.argv[1:])
    if why:
        print(f"kaba: {why}", file=sys.stderr)


if __name__ == "__main__":
    main()
