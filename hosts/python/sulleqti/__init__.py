"""Styles and locales of CSL and works of CSL-JSON, as the values of JSON that Sulleqti takes
(docs/WIRE.md). It needs no checkout of the library.

>>> style = sulleqti.Style("apa.csl", ["en-GB"])       # doctest: +SKIP
>>> works, faults = sulleqti.works_of("items.json", style.left)       # doctest: +SKIP
"""
from sulleqti.attributes import Tree
from sulleqti.citations import Citation, citations_of
from sulleqti.document import Refused
from sulleqti.locales import locale_of
from sulleqti.processor import Content, Document, Entry, Processor, ServerEnded
from sulleqti.styles import Style
from sulleqti.works import Work, works_of

__all__ = ["Citation", "Content", "Document", "Entry", "Processor", "Refused", "ServerEnded",
           "Style", "Tree", "Work", "citations_of", "locale_of", "works_of"]
