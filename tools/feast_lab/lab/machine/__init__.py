"""The lab's own machine: it makes events again from the code of their elements."""
