"""What pages show: blocks of code, and commands with the output of each."""
import re

BLOCK = re.compile(r"^```(\w*)\n(.*?)^```$", re.M | re.S)
# a command of a block, which may go on in lines that begin with `> `, and its output
COMMAND = re.compile(r"^\$ (.*(?:\n> .*)*)\n((?:(?!\$ ).*\n)*)", re.M)
LITERAL = re.compile(r"^\.Bd -literal -offset indent\n(.*?)^\.Ed$", re.M | re.S)


def commands_of(block):
    """Returns the commands of a block, each with its output."""
    return [(re.sub(r"^> ", "", command, flags=re.M), printed) for command, printed in COMMAND.findall(block)]


def sessions_of(page):
    """Returns the commands of each block of a page that shows a session in a terminal."""
    return [commands_of(text) for language, text in BLOCK.findall(page) if language == "console"]


def examples_of(manual_page):
    """Returns the commands of a manual page, each with its output."""
    blocks = (it.replace("\\e", "\\").replace("\\&", "") for it in LITERAL.findall(manual_page))
    return [it for block in blocks for it in commands_of(block)]
