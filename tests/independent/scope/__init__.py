"""The rules of docs/SCOPE.md, one by one, in plain Python.

Each module states one part of them. A comment such as `# T7: ..` stands right above the
lines that carry the rule T7, and says it in a few words. Nothing here is written for
speed.
"""
