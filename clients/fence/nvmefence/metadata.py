"""The agent's metadata, in the XML form of fence agents."""
from __future__ import annotations

import xml.etree.ElementTree as xml

from .options import ACTIONS, NAME, OPTIONS


def metadata() -> str:
    """The agent's metadata, in the XML form of fence agents."""
    agent = xml.Element("resource-agent", name=NAME, shortdesc="Fence agent for NVMe reservations")
    xml.SubElement(agent, "longdesc").text = (
        f"{NAME} is an I/O fencing agent that uses NVMe reservations to control access to shared namespaces. "
        "'on' registers this node's key on each device, persistently if the device can, and acquires the reservation: "
        "only registered nodes may write. 'off' takes the key of another node away by Preempt and Abort: its commands "
        "in progress are aborted, and its writes get Reservation Conflict from then on. The fenced node is not "
        "powered off, and has to be rebooted before it may join again. All nodes need access to all devices.")
    xml.SubElement(agent, "vendor-url")
    parameters = xml.SubElement(agent, "parameters")
    for it in OPTIONS:
        one = xml.SubElement(parameters, "parameter", name=it.name, unique="0", required=str(int(it.required)))
        value = "" if it.kind == "boolean" else f"=[{it.name}]"
        xml.SubElement(one, "getopt", mixed=f"{it.letter}, {it.long}{value}")
        content = xml.SubElement(one, "content", type=it.kind)
        if it.default:
            content.set("default", it.default)
        xml.SubElement(one, "shortdesc", lang="en").text = it.words
    actions = xml.SubElement(agent, "actions")
    # Without `required`, an older word for `automatic`, which pcs refuses.
    xml.SubElement(actions, "action", name="on", on_target="1", automatic="1")
    for action in ACTIONS[1:]:
        xml.SubElement(actions, "action", name=action)
    xml.indent(agent, "\t")
    return '<?xml version="1.0" ?>\n' + xml.tostring(agent, encoding="unicode")
