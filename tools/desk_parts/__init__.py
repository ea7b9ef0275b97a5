"""The parts of `tools/desk`: a face written in words, an answer read in words, and its picture.

For people at the desk. Nothing of it is linked into the closer, and nothing of it is proved.
"""
