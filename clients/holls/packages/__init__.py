"""Package commands: one command of a file that stands for several of the program's.

Nothing of them is trusted: each is expanded into plain commands, which the program checks and `holls expand` prints.
"""
