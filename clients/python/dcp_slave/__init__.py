"""A kit to write a slave of one's own for the masters of dcpctl: derive from `Slave`, and call `main`.

It keeps to the rules of a slave (docs/PROTOCOL.md of the repository), over UDP and TCP, and needs Python 3.9 or later
and nothing but the standard library.
"""
from .messages import Type
from .scenario import Description, Port, Scenario, ScenarioError, read_scenario
from .serving import main, serve
from .slave import ModelFault, Slave

__all__ = [
    "Description", "ModelFault", "Port", "Scenario", "ScenarioError", "Slave", "Type", "main", "read_scenario", "serve",
]
