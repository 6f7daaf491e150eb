"""What the tools of this folder share: captures, frames, reports, policies and commands, read and told in words.

Written from docs/FORMATS.md, docs/MODEL.md and the formats' own documents, apart from the switch, for Python 3.9 and its
standard library alone. Nothing here is proved.
"""
