"""What of a ptp4l.conf carries over into a scenario."""

from __future__ import annotations

import os
from dataclasses import dataclass, field
from decimal import Decimal, InvalidOperation

from .errors import ToolError

SAME_NUMBER = frozenset(
    "domainNumber priority1 priority2 clockClass utc_offset boundary_clock_jbod"
    " delay_filter_length".split()
)
SAME_HEX = {"clockAccuracy": 2, "offsetScaledLogVariance": 4, "timeSource": 2}
SAME_SECONDS = frozenset(("step_threshold", "first_step_threshold"))
OF_PORTS = frozenset(
    "logAnnounceInterval logSyncInterval logMinDelayReqInterval announceReceiptTimeout".split()
)
GAINS = {"pi_proportional_const": "servo_kp", "pi_integral_const": "servo_ki"}
SOFTWARE_GAINS = {"servo_kp": "100", "servo_ki": "1"}
"""What ptp4l takes with software stamps where the configuration has no gains."""

NO_LIMIT = "900000000"

AS_THE_PROGRAM = {
    "delay_mechanism": ("E2E", "Auto"),
    "delay_filter": ("moving_median",),
    "clock_servo": ("pi",),
    "clock_type": ("BC", "OC"),
    "twoStepFlag": ("1",),
    "slaveOnly": ("0",),
    "clientOnly": ("0",),
    "free_running": ("0",),
    "gmCapable": ("1",),
    "hybrid_e2e": ("0",),
    "BMCA": ("ptp",),
    "dataset_comparison": ("ieee1588",),
    "transportSpecific": ("0x0", "0"),
    "time_stamping": ("hardware", "software"),
    "follow_up_info": ("0",),
    "path_trace_enabled": ("0",),
}
"""Options at which the program does what they say, without being told."""

NO_PORTS = ("global", "unicast_master_table", "message_tag", "security_association", "nmea")


@dataclass
class Conf:
    """A ptp4l.conf as a scenario has it."""

    identity: str | None = None
    options: dict[str, str] = field(default_factory=dict)
    """Of `[global]`, by the program's names."""
    ports: list[tuple[str, dict[str, str]]] = field(default_factory=list)
    """Each port section's name with the options that carry over."""
    left: list[str] = field(default_factory=list)
    """What does not carry over, each with its section."""


def read_conf(path: str) -> Conf:
    """Reads a ptp4l.conf."""
    with open(path, encoding="utf-8", errors="replace") as file:
        lines = file.read().splitlines()
    conf = Conf()
    section: str | None = None
    given: dict[str, str] = {}
    for number, line in enumerate(lines, 1):
        words = line.split(None, 1)
        if not words or words[0].startswith("#"):
            continue
        if line.lstrip().startswith("["):
            section = header(path, number, line)
            if section not in NO_PORTS and section not in (name for name, _ in conf.ports):
                conf.ports.append((section, {}))
        elif section is None:
            raise ToolError(f"{path}: line {number} stands before any section")
        elif len(words) < 2:
            raise ToolError(f"{path}: line {number} has an option without a value")
        elif section in NO_PORTS[1:]:
            conf.left.append(f"{words[0]} {words[1].strip()} of [{section}]")
        else:
            take(conf, section, words[0], words[1].strip(), given)
    take_gains(conf, given)
    return conf


def header(path: str, number: int, line: str) -> str:
    """The name of a section."""
    text = line.strip()
    if not text.endswith("]"):
        raise ToolError(f"{path}: line {number} is no header of a section")
    return text[1:-1].strip()


def take(conf: Conf, section: str, name: str, value: str, given: dict[str, str]) -> None:
    """Takes one option, into the scenario or among what is left."""
    of_global = section == "global"
    if of_global and name in GAINS or name == "time_stamping" and of_global:
        given[name] = value
    elif of_global and name == "clockIdentity":
        conf.identity = value
    else:
        carried = carry(name, value, of_global)
        if carried is not None:
            target = conf.options if of_global else dict(conf.ports)[section]
            target[name] = carried
        elif value not in AS_THE_PROGRAM.get(name, ()):
            conf.left.append(f"{name} {value} of [{section}]")


def carry(name: str, value: str, of_global: bool) -> str | None:
    """The value as the program reads it: none where the option does not carry over."""
    try:
        if name in OF_PORTS or of_global and name in SAME_NUMBER:
            return str(int(value, 0))
        if of_global and name in SAME_HEX:
            return f"0x{int(value, 0):0{SAME_HEX[name]}X}"
        if of_global and name in SAME_SECONDS:
            return seconds_text(Decimal(value))
        if of_global and name == "max_frequency":
            return NO_LIMIT if int(value, 0) == 0 else str(int(value, 0))
    except (ValueError, InvalidOperation):
        pass
    return None


def take_gains(conf: Conf, given: dict[str, str]) -> None:
    """The servo's gains: as they are given, in thousandths, else by the kind of the stamps."""
    stamps = given.get("time_stamping", "hardware")
    if stamps not in AS_THE_PROGRAM["time_stamping"]:
        conf.left.append(f"time_stamping {stamps} of [global]")
    for name, own in GAINS.items():
        value = given.get(name, "0")
        try:
            thousandths = Decimal(value) * 1000
        except InvalidOperation:
            thousandths = Decimal("NaN")
        if thousandths == 0:
            if stamps == "software":
                conf.options[own] = SOFTWARE_GAINS[own]
        elif thousandths.is_finite() and thousandths == int(thousandths):
            conf.options[own] = str(int(thousandths))
        else:
            conf.left.append(f"{name} {value} of [global]")


def seconds_text(seconds: Decimal) -> str:
    """Seconds with a point and at most nine digits behind it."""
    text = f"{seconds:.9f}".rstrip("0")
    return text + "0" if text.endswith(".") else text


def base_name(path: str) -> str:
    """The name of a file in a comment: without its folder, and in octets that a scenario takes."""
    return os.path.basename(path).encode("ascii", "replace").decode("ascii")
