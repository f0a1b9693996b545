"""What the tools make of CSL files: rows and Rattle, over the readers of the package `sulleqti`."""
import kit  # (it knows where the package is)
