"""The second program: document 01 and the papers behind it once more, in Python's standard library alone.

It shares nothing with the crates. The tests compare the two on published vectors, on document 01's cases and on
seeded random input. `hashlib` and `hmac` serve as the hash and its MAC: they are nobody's here.
"""
