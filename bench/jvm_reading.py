"""What the comparison with a JVM takes of the scripts' reader of sources and of their machine."""
from __future__ import annotations

# lets the next lines import the package of tools/
import command_line  # noqa: F401

from atomic_tools.actions import ACTIONS, wrapped
from atomic_tools.instructions import Code, Instruction
from atomic_tools.machine import Machine
from atomic_tools.parts import Class, Field, Method, Part
from atomic_tools.reader import Reader, Unread
from atomic_tools.source import Source
from atomic_tools.states import Address, Fault, Step, Stuck, Thread, shown

__all__ = ["ACTIONS", "Address", "Class", "Code", "Fault", "Field", "Instruction", "Machine", "Method", "Part"]
__all__ += ["Reader", "Source", "Step", "Stuck", "Thread", "Unread", "shown", "wrapped"]
