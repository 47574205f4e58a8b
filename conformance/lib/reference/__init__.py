"""The language, written once more from its definitions: what a text's tree is, what it means, and what is wrong with it.

Each module follows modules of `specs/`; docs/contributing/CONFORMANCE.md says which. It shares nothing with the engine.
"""
