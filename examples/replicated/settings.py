"""The settings of a program: from its words, or else from a file in TOML, or else a default.

    replica.py --config r1.toml --listen 127.0.0.1:8101

What is `checkpoint_seconds` in the file is `--checkpoint-seconds` among the words. Settings that make no sense end the
program with status 2, with its usage and a text that names the setting.
"""

import argparse
import math
import re
import tomllib
import types
from typing import NamedTuple

import logs

REQUIRED = object()  # in place of a default


class Setting(NamedTuple):
    """A setting. `read` returns its value for a text or for a value of TOML, or raises ValueError."""

    name: str
    read: object
    help: str
    default: object = REQUIRED


def expects(text):
    """What the function that follows reads, for the texts of errors."""

    def mark(read):
        read.expected = text
        return read

    return mark


def number(least, kind=int, open_end=False):
    """Reads a number from `least` on; or a greater one, where the end is open."""

    @expects(f"a {'whole ' if kind is int else ''}number {'above' if open_end else 'from'} {least}")
    def read(value):
        if type(value) not in (str, int, kind):
            raise ValueError
        value = kind(value)
        if not math.isfinite(value) or value < least or open_end and value == least:
            raise ValueError
        return value

    return read


@expects("a name of letters, digits, '.', '_' and '-'")
def name(value):
    if not isinstance(value, str) or not re.fullmatch(r"[A-Za-z0-9._-]{1,100}", value):
        raise ValueError
    return value


@expects("a path")
def path(value):
    if not isinstance(value, str) or not value:
        raise ValueError
    return value


@expects("an address HOST:PORT, with a port from 0 to 65535")
def address(value):
    found = re.fullmatch(r"[A-Za-z0-9._-]+:([0-9]{1,5})", value) if isinstance(value, str) else None
    if not found or int(found[1]) > 65_535:
        raise ValueError
    return value


@expects("addresses HOST:PORT of members of etcd")
def members(value):
    if not isinstance(value, list) or not value:
        raise ValueError
    return [address(member) for member in value]


@expects("one of " + ", ".join(logs.LEVELS))
def level(value):
    if value not in logs.LEVELS:
        raise ValueError
    return value


MEMBERS = Setting("members", members, "the members of etcd, each as HOST:PORT")
LISTEN = Setting(
    "listen", address, "where it answers over HTTP, and others reach it; port 0 is any that is free", "127.0.0.1:0"
)
LOG_LEVEL = Setting("log_level", level, "the least level of its lines of log: debug, info, warning, error", "info")


def option(setting):
    return "--" + setting.name.replace("_", "-")


def parser_of(description, settings):
    parser = argparse.ArgumentParser(
        description=description, formatter_class=argparse.RawDescriptionHelpFormatter, allow_abbrev=False
    )
    parser.add_argument("--config", metavar="FILE", help="a file in TOML with settings, which words replace")
    parser.add_argument("--piped", action="store_true", help="read commands from standard input, and end with it")
    for setting in settings:
        known = "" if setting.default is REQUIRED else f" (default: {setting.default})"
        words = {"nargs": "+"} if setting.read is members else {}
        metavar = setting.name.upper()
        parser.add_argument(option(setting), metavar=metavar, help=setting.help + known, **words)
    return parser


def read_file(parser, config):
    """Returns what a file says, as TOML has it."""
    try:
        with open(config, "rb") as file:
            return tomllib.load(file)
    except OSError as failure:
        parser.error(f"{config}: {failure.strerror}")
    except (tomllib.TOMLDecodeError, UnicodeDecodeError) as failure:
        parser.error(f"{config}: no TOML: {failure}")


def read(description, settings, words=None):
    """Returns the values of the settings by name, and `piped`. Ends the program where a setting makes no sense."""
    parser = parser_of(description, settings)
    given = vars(parser.parse_args(words))
    in_file = read_file(parser, given["config"]) if given["config"] else {}
    for key in in_file.keys() - {setting.name for setting in settings}:
        parser.error(f"{given['config']}: there is no setting {key}")
    values = types.SimpleNamespace(piped=given["piped"])
    for setting in settings:
        if given[setting.name] is not None:
            origin, value = option(setting), given[setting.name]
        elif setting.name in in_file:
            origin, value = f"{given['config']}: {setting.name}", in_file[setting.name]
        elif setting.default is REQUIRED:
            parser.error(f"{option(setting)} is missing, and {setting.name} in a file of --config")
        else:
            origin, value = None, setting.default
        try:
            setattr(values, setting.name, setting.read(value) if origin else value)
        except (ValueError, OverflowError):
            parser.error(f"{origin}: expected {setting.read.expected}, got {value!r}")
    return values
