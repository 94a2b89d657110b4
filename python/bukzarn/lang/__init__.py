"""Images of the watch engine as text: assembler, disassembler, pictures, refusals in words, listings.

The layouts, numbers and rules are those of document 01. The text form is told in docs/LANGUAGE.md.
"""
